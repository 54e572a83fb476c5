// A guest's calls by POSIX threads. This file isn't compiled with -fsanitize=thread, since a call makes no access. One thread runs at a
// time, until an access or sched_yield ends its turn: so nothing here is cut in two.
#include "predator.h"

#include <errno.h>
#include <pthread.h>
#include <sched.h>
#include <stdlib.h>
#include <string.h>
#include <unistd.h>

#define HARTS 256

static struct {
    pthread_t thread;
    int (*run)(void *);
    void *argument;
    int is_used, code;
    const volatile uint32_t *waits_at;
} harts[HARTS] = {{.is_used = 1}};
static __thread int self;

static void *begin(void *number)
{
    self = (int)(intptr_t)number;
    harts[self].code = harts[self].run(harts[self].argument);
    return 0;
}

int predator_spawn(int (*run)(void *), void *argument)
{
    int hart = 0;
    while (hart < HARTS && harts[hart].is_used)
        hart++;
    if (hart == HARTS)
        return -EAGAIN;
    harts[hart].is_used = 1;
    harts[hart].run = run;
    harts[hart].argument = argument;
    return pthread_create(&harts[hart].thread, 0, begin, (void *)(intptr_t)hart) == 0 ? hart : -EAGAIN;
}

int predator_join(int hart)
{
    pthread_join(harts[hart].thread, 0);
    harts[hart].is_used = 0;
    return harts[hart].code;
}

int predator_wait(const volatile uint32_t *word, uint32_t value)
{
    if (*word != value)
        return -EAGAIN;
    harts[self].waits_at = word;
    while (harts[self].waits_at)
        sched_yield();
    return 0;
}

int predator_wake(const volatile uint32_t *word, uint32_t most)
{
    int woken = 0;
    for (int hart = 0; hart < HARTS && (uint32_t)woken < most; hart++)
        if (harts[hart].waits_at == word) {
            harts[hart].waits_at = 0;
            woken++;
        }
    return woken;
}

int predator_hart_id(void) { return self; }
int predator_write(int file, const void *bytes, size_t count) { return (int)write(file, bytes, count); }

// The first block begins a line, as it does in a guest's heap.
void *predator_alloc(size_t size)
{
    static int has_begun;
    if (!has_begun)
        while ((uintptr_t)malloc(24) % 64 != 32)
            ;
    has_begun = 1;
    return malloc(size);
}

void predator_exit_group(int code) { exit(code); }

int predator_free(void *block)
{
    free(block);
    return 0;
}

void print(const char *text) { predator_write(1, text, strlen(text)); }

void print_number(uint32_t number)
{
    char digits[10];
    int at = 10;
    do
        digits[--at] = (char)('0' + number % 10);
    while ((number /= 10) > 0);
    predator_write(1, digits + at, 10 - at);
}
