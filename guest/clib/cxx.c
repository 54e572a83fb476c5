// What C++ without exceptions calls by itself: new and delete, which end the run where there is no memory, the first use of a variable of
// a function, and what is destroyed at an end.
#include <pthread.h>
#include <stdatomic.h>
#include <stddef.h>
#include <stdint.h>
#include <stdlib.h>
#include "../predator.h"

#define NAMED(name) __asm__(name)

static _Noreturn void end(const char *text, size_t count)
{
    predator_write(2, text, count);
    predator_exit_group(134);
}

#define END(text) end(text, sizeof text - 1)

// ---- new and delete

void *cxx_new(size_t size) NAMED("_Znwj");
void *cxx_new_array(size_t size) NAMED("_Znaj");
void *cxx_new_aligned(size_t size, size_t align) NAMED("_ZnwjSt11align_val_t");
void *cxx_new_array_aligned(size_t size, size_t align) NAMED("_ZnajSt11align_val_t");
void *cxx_new_nothrow(size_t size, const void *unused) NAMED("_ZnwjRKSt9nothrow_t");
void *cxx_new_array_nothrow(size_t size, const void *unused) NAMED("_ZnajRKSt9nothrow_t");
void *cxx_new_aligned_nothrow(size_t size, size_t align, const void *unused) NAMED("_ZnwjSt11align_val_tRKSt9nothrow_t");
void *cxx_new_array_aligned_nothrow(size_t size, size_t align, const void *unused) NAMED("_ZnajSt11align_val_tRKSt9nothrow_t");
void cxx_delete(void *block) NAMED("_ZdlPv");
void cxx_delete_array(void *block) NAMED("_ZdaPv");
void cxx_delete_sized(void *block, size_t size) NAMED("_ZdlPvj");
void cxx_delete_array_sized(void *block, size_t size) NAMED("_ZdaPvj");
void cxx_delete_aligned(void *block, size_t align) NAMED("_ZdlPvSt11align_val_t");
void cxx_delete_array_aligned(void *block, size_t align) NAMED("_ZdaPvSt11align_val_t");
void cxx_delete_aligned_sized(void *block, size_t size, size_t align) NAMED("_ZdlPvjSt11align_val_t");
void cxx_delete_array_aligned_sized(void *block, size_t size, size_t align) NAMED("_ZdaPvjSt11align_val_t");
void cxx_delete_nothrow(void *block, const void *unused) NAMED("_ZdlPvRKSt9nothrow_t");
void cxx_delete_array_nothrow(void *block, const void *unused) NAMED("_ZdaPvRKSt9nothrow_t");
void cxx_delete_aligned_nothrow(void *block, size_t align, const void *unused) NAMED("_ZdlPvSt11align_val_tRKSt9nothrow_t");
void cxx_delete_array_aligned_nothrow(void *block, size_t align, const void *unused) NAMED("_ZdaPvSt11align_val_tRKSt9nothrow_t");

static void *had(void *block)
{
    if (block == NULL)
        END("new: there is no memory left\n");
    return block;
}

void *cxx_new(size_t size)
{
    return had(malloc(size));
}

void *cxx_new_array(size_t size)
{
    return had(malloc(size));
}

void *cxx_new_aligned(size_t size, size_t align)
{
    return had(aligned_alloc(align, size));
}

void *cxx_new_array_aligned(size_t size, size_t align)
{
    return had(aligned_alloc(align, size));
}

void *cxx_new_nothrow(size_t size, const void *unused)
{
    (void)unused;
    return malloc(size);
}

void *cxx_new_array_nothrow(size_t size, const void *unused)
{
    (void)unused;
    return malloc(size);
}

void *cxx_new_aligned_nothrow(size_t size, size_t align, const void *unused)
{
    (void)unused;
    return aligned_alloc(align, size);
}

void *cxx_new_array_aligned_nothrow(size_t size, size_t align, const void *unused)
{
    (void)unused;
    return aligned_alloc(align, size);
}

void cxx_delete(void *block)
{
    free(block);
}

void cxx_delete_array(void *block)
{
    free(block);
}

void cxx_delete_sized(void *block, size_t size)
{
    (void)size;
    free(block);
}

void cxx_delete_array_sized(void *block, size_t size)
{
    (void)size;
    free(block);
}

void cxx_delete_aligned(void *block, size_t align)
{
    (void)align;
    free(block);
}

void cxx_delete_array_aligned(void *block, size_t align)
{
    (void)align;
    free(block);
}

void cxx_delete_aligned_sized(void *block, size_t size, size_t align)
{
    (void)size, (void)align;
    free(block);
}

void cxx_delete_array_aligned_sized(void *block, size_t size, size_t align)
{
    (void)size, (void)align;
    free(block);
}

void cxx_delete_nothrow(void *block, const void *unused)
{
    (void)unused;
    free(block);
}

void cxx_delete_array_nothrow(void *block, const void *unused)
{
    (void)unused;
    free(block);
}

void cxx_delete_aligned_nothrow(void *block, size_t align, const void *unused)
{
    (void)align, (void)unused;
    free(block);
}

void cxx_delete_array_aligned_nothrow(void *block, size_t align, const void *unused)
{
    (void)align, (void)unused;
    free(block);
}

// ---- a variable of a function that is made once: its first byte says whether it is, and the word behind is a lock

struct guard {
    _Atomic uint8_t is_made;
    uint8_t unused[3];
    _Atomic uint32_t lock;
};

int __cxa_guard_acquire(struct guard *guard);
void __cxa_guard_release(struct guard *guard);
void __cxa_guard_abort(struct guard *guard);
_Noreturn void __cxa_pure_virtual(void);
_Noreturn void __cxa_deleted_virtual(void);

static void let_go(struct guard *guard)
{
    if (atomic_exchange(&guard->lock, 0) == 2)
        predator_wake((const volatile uint32_t *)&guard->lock, 0xFFFFFFFFu);
}

int __cxa_guard_acquire(struct guard *guard)
{
    uint32_t seen = 0;
    if (guard->is_made)
        return 0;
    if (!atomic_compare_exchange_strong(&guard->lock, &seen, 1))
        while (atomic_exchange(&guard->lock, 2) != 0)
            predator_wait((const volatile uint32_t *)&guard->lock, 2);
    if (!guard->is_made)
        return 1;
    let_go(guard);
    return 0;
}

void __cxa_guard_release(struct guard *guard)
{
    guard->is_made = 1;
    let_go(guard);
}

void __cxa_guard_abort(struct guard *guard)
{
    let_go(guard);
}

_Noreturn void __cxa_pure_virtual(void)
{
    END("a pure virtual function was called\n");
}

_Noreturn void __cxa_deleted_virtual(void)
{
    END("a deleted virtual function was called\n");
}

// ---- what is destroyed where the program ends, or a thread: the last first

struct ending {
    void (*destroy)(void *object);
    void *object;
    struct ending *before;
};

static _Atomic(struct ending *) of_program;
static _Thread_local struct ending *of_thread;
static pthread_key_t of_threads;

int __cxa_atexit(void (*destroy)(void *), void *object, void *unused);
int __cxa_thread_atexit(void (*destroy)(void *), void *object, void *unused);

static struct ending *ending(void (*destroy)(void *), void *object, struct ending *before)
{
    struct ending *made = had(malloc(sizeof *made));
    *made = (struct ending){destroy, object, before};
    return made;
}

static void end_program(void)
{
    struct ending *last;
    while ((last = of_program) != NULL) {
        of_program = last->before;
        last->destroy(last->object);
        free(last);
    }
}

int __cxa_atexit(void (*destroy)(void *), void *object, void *unused)
{
    struct ending *before = of_program, *made = ending(destroy, object, before);
    (void)unused;
    while (!atomic_compare_exchange_weak(&of_program, &before, made))
        made->before = before;
    return before == NULL ? atexit(end_program) : 0;
}

static void end_thread(void *unused)
{
    struct ending *last;
    (void)unused;
    while ((last = of_thread) != NULL) {
        of_thread = last->before;
        last->destroy(last->object);
        free(last);
    }
}

static void end_first_thread(void)
{
    end_thread(NULL);
}

static void make_key(void)
{
    pthread_key_create(&of_threads, end_thread);
    atexit(end_first_thread);
}

int __cxa_thread_atexit(void (*destroy)(void *), void *object, void *unused)
{
    static pthread_once_t once = PTHREAD_ONCE_INIT;
    (void)unused;
    pthread_once(&once, make_key);
    of_thread = ending(destroy, object, of_thread);
    return pthread_setspecific(of_threads, &of_thread);
}
