// The calls that the kit makes for a program, for which the linker takes these (--wrap): is each answer what the table of guest/README.md says? How
// many of each there were, and how many weren't, stands in a line at the program's end. It is for programs without realloc, whose malloc is the call.
#include <errno.h>
#include <stdatomic.h>
#include <stdint.h>
#include <stdio.h>
#include <stdlib.h>

#define LIST(of) of(write) of(alloc) of(free) of(spawn) of(join) of(wait) of(wake) of(hart_id)
#define NAME(name) CALL_##name,
enum { LIST(NAME) KINDS };
#define TEXT(name) #name,
static const char *const names[] = {LIST(TEXT)};

static atomic_uint calls[KINDS], wrong[KINDS];
static atomic_flag lock = ATOMIC_FLAG_INIT;

static void judge(int kind, int is_right)
{
    atomic_fetch_add(&calls[kind], 1);
    if (!is_right)
        atomic_fetch_add(&wrong[kind], 1);
}

static void take(void)
{
    while (atomic_flag_test_and_set(&lock))
        continue;
}

static void leave(void)
{
    atomic_flag_clear(&lock);
}

// ---- write

int __real_predator_write(int file, const void *bytes, size_t count);
int __wrap_predator_write(int file, const void *bytes, size_t count);

int __wrap_predator_write(int file, const void *bytes, size_t count)
{
    int answer = __real_predator_write(file, bytes, count);
    judge(CALL_write, answer == (file != 1 && file != 2 ? -EINVAL : (int)(count < 4096 ? count : 4096)));
    return answer;
}

// ---- alloc and free: a block lies at the least place that has room for it

#define BLOCKS 4096

void *__real_malloc(size_t size);
void *__wrap_malloc(size_t size);
void __real_free(void *block);
void __wrap_free(void *block);

// (in the order of their places; the heap begins where the first of all blocks lies)
static struct {
    uintptr_t first, end;
} blocks[BLOCKS];
static unsigned living;
static uintptr_t heap;

static void note(uintptr_t block, uintptr_t room)
{
    unsigned at = 0;
    uintptr_t least = heap;
    while (at < living && blocks[at].first - least < room) {
        least = blocks[at].end;
        at++;
    }
    judge(CALL_alloc, block == least && block % 16 == 0 && living < BLOCKS);
    for (unsigned i = living; i > at; i--)
        blocks[i] = blocks[i - 1];
    blocks[at].first = block, blocks[at].end = block + room;
    living++;
}

void *__wrap_malloc(size_t size)
{
    take();
    uintptr_t block = (uintptr_t)__real_malloc(size);
    if (heap == 0 && block % 4096 == 0)
        heap = block;
    if (block != 0)
        note(block, size == 0 ? 16 : (size + 15) / 16 * 16);
    leave();
    return (void *)block;
}

// (a wrong one ends the run)
void __wrap_free(void *block)
{
    unsigned at = 0;
    take();
    __real_free(block);
    while (at < living && blocks[at].first != (uintptr_t)block)
        at++;
    judge(CALL_free, block == NULL || at < living);
    if (at < living)
        living--;
    for (; at < living; at++)
        blocks[at] = blocks[at + 1];
    leave();
}

// ---- spawn and join: the lowest hart that is free begins

#ifndef HARTS
#define HARTS 8
#endif

int __real_predator_spawn_thread(void *(*run)(void *), void *argument);
int __wrap_predator_spawn_thread(void *(*run)(void *), void *argument);
int __real_predator_join(int hart);
int __wrap_predator_join(int hart);

// (one that somebody joins is free once it has ended, which is known a little later)
static enum { FREE, JOINED, USED } harts[HARTS] = {USED};

int __wrap_predator_spawn_thread(void *(*run)(void *), void *argument)
{
    take();
    int answer = __real_predator_spawn_thread(run, argument), least = 0;
    while (least < HARTS && harts[least] != FREE)
        least++;
    int is_none = answer == -EAGAIN && least == HARTS;
    int is_least = answer > 0 && answer <= least && answer < HARTS && harts[answer] != USED;
    judge(CALL_spawn, is_none || is_least);
    if (is_least)
        harts[answer] = USED;
    leave();
    return answer;
}

int __wrap_predator_join(int hart)
{
    take();
    int is_there = hart > 0 && hart < HARTS && harts[hart] == USED;
    if (is_there)
        harts[hart] = JOINED;
    leave();
    int answer = __real_predator_join(hart);
    take();
    judge(CALL_join, is_there || answer == -EINVAL);
    if (is_there && harts[hart] == JOINED)
        harts[hart] = FREE;
    leave();
    return answer;
}

// ---- wait and wake: who is woken has waited there

int __real_predator_wait(const volatile uint32_t *word, uint32_t value);
int __wrap_predator_wait(const volatile uint32_t *word, uint32_t value);
int __real_predator_wake(const volatile uint32_t *word, uint32_t most);
int __wrap_predator_wake(const volatile uint32_t *word, uint32_t most);

static const volatile uint32_t *waits[HARTS];
static atomic_uint slept, woken;

int __wrap_predator_wait(const volatile uint32_t *word, uint32_t value)
{
    int hart = (int)((TOP - (uintptr_t)__builtin_frame_address(0)) / 65536);
    take();
    waits[hart] = word;
    leave();
    int answer = __real_predator_wait(word, value);
    take();
    waits[hart] = NULL;
    leave();
    judge(CALL_wait, answer == 0 || answer == -EAGAIN);
    if (answer == 0)
        atomic_fetch_add(&slept, 1);
    return answer;
}

int __wrap_predator_wake(const volatile uint32_t *word, uint32_t most)
{
    int waiting = 0;
    take();
    for (int i = 0; i < HARTS; i++)
        waiting += waits[i] == word;
    int answer = __real_predator_wake(word, most);
    leave();
    judge(CALL_wake, answer >= 0 && (uint32_t)answer <= most && answer <= waiting);
    atomic_fetch_add(&woken, (unsigned)answer);
    return answer;
}

// ---- hart_id: the stack of hart h ends at `top - h * stack`

int __real_predator_hart_id(void);
int __wrap_predator_hart_id(void);

int __wrap_predator_hart_id(void)
{
    int answer = __real_predator_hart_id();
    judge(CALL_hart_id, answer == (int)((TOP - (uintptr_t)__builtin_frame_address(0)) / 65536));
    return answer;
}

__attribute__((destructor)) static void print_end(void)
{
    unsigned made[KINDS], all = 0;
    for (int i = 0; i < KINDS; i++)
        made[i] = calls[i];
    for (int i = 0; i < KINDS; i++) {
        all += wrong[i];
        printf("calls: %s %u, %u wrong\n", names[i], made[i], (unsigned)wrong[i]);
    }
    printf("calls: %u wrong, %u waits and %u wakes%s\n", all, slept, woken, slept == woken ? " each" : "");
}
