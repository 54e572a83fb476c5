// sbrk, over one block of the run's heap that is taken by the first call: as large as predator_break says, which a program may define
// itself, or the largest half, quarter and so on of that for which there is room.
#include <errno.h>
#include <pthread.h>
#include <stdint.h>
#include <unistd.h>
#include "../predator.h"
#include "clear.h"

const size_t predator_break __attribute__((weak)) = 4u << 20;

#define PAGE 4096u

ALONE static struct {
    pthread_mutex_t lock;
    char *first, *now, *end;
} area = {.lock = PTHREAD_MUTEX_INITIALIZER};

static void begin(void)
{
    // (volatile, since the program's own may have another value)
    size_t size = *(const volatile size_t *)&predator_break & -(size_t)PAGE;
    char *block = NULL;
    while (size >= PAGE && (block = predator_alloc(size + PAGE - 16)) == NULL)
        size = size / 2 & -(size_t)PAGE;
    if (block == NULL)
        return;
    area.first = area.now = (char *)(((uintptr_t)block + PAGE - 1) & -(uintptr_t)PAGE);
    area.end = area.first + size;
}

// Moves the end, under the lock. What comes to it is cleared by whole words, and what leaves it to the last byte.
static int move(char *to)
{
    if (area.first == NULL)
        begin();
    if (area.first == NULL || to < area.first || to > area.end)
        return 0;
    char *from = (char *)(((uintptr_t)area.now + 3) & ~(uintptr_t)3), *until = (char *)(((uintptr_t)to + 3) & ~(uintptr_t)3);
    if (until > from)
        clear_words(from, (size_t)(until - from));
    for (char *it = to; it < area.now && it < until; it++)
        *it = 0;
    area.now = to;
    return 1;
}

void *sbrk(ptrdiff_t more)
{
    pthread_mutex_lock(&area.lock);
    if (area.first == NULL)
        begin();
    char *before = area.now;
    int moved = before != NULL && (more >= 0 ? more <= area.end - before : -more <= before - area.first) && move(before + more);
    pthread_mutex_unlock(&area.lock);
    if (moved)
        return before;
    errno = ENOMEM;
    return (void *)-1;
}

int brk(void *end)
{
    pthread_mutex_lock(&area.lock);
    int moved = move(end);
    pthread_mutex_unlock(&area.lock);
    if (moved)
        return 0;
    errno = ENOMEM;
    return -1;
}
