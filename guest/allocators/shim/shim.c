// Pages for allocators that ask a system for them, from blocks of the guest's heap. Pages that are given back stay unused, so that each
// mapping is of zeros, as it has to be.
#include <errno.h>
#include <pthread.h>
#include <stdint.h>
#include <sys/mman.h>
#include <unistd.h>
#include "predator.h"

#define PAGE ((size_t)4096)
// Mappings of this size or more begin at a multiple of it, as those of huge pages do.
#define HUGE ((size_t)4 << 20)
// The most that sbrk gives.
#define BREAK ((size_t)2 << 20)

static pthread_mutex_t lock = PTHREAD_MUTEX_INITIALIZER;

// A block at a multiple of `step`: where the heap's next place is none, what lies before it is taken meanwhile.
static char *aligned(size_t size, size_t step)
{
    char *block = predator_alloc(size);
    if (block == NULL || (uintptr_t)block % step == 0)
        return block;
    predator_free(block);
    char *before = predator_alloc(-(uintptr_t)block % step);
    block = predator_alloc(size);
    predator_free(before);
    if (block == NULL || (uintptr_t)block % step == 0)
        return block;
    predator_free(block);
    return NULL;
}

void *mmap(void *at, size_t size, int rights, int flags, int file, off_t from)
{
    (void)at, (void)rights, (void)flags, (void)file, (void)from;
    pthread_mutex_lock(&lock);
    char *block = aligned((size + PAGE - 1) & -PAGE, size >= HUGE ? HUGE : PAGE);
    pthread_mutex_unlock(&lock);
    if (block == NULL)
        errno = ENOMEM;
    return block == NULL ? MAP_FAILED : block;
}

int munmap(void *at, size_t size)
{
    (void)at, (void)size;
    return 0;
}

int mprotect(void *at, size_t size, int rights)
{
    (void)at, (void)size, (void)rights;
    return 0;
}

int madvise(void *at, size_t size, int advice)
{
    (void)at, (void)size, (void)advice;
    return 0;
}

void *sbrk(ptrdiff_t more)
{
    static char *begin, *end;
    pthread_mutex_lock(&lock);
    if (begin == NULL)
        begin = end = aligned(BREAK, PAGE);
    char *old = end;
    if (begin != NULL && more <= begin + BREAK - end && more >= begin - end)
        end += more;
    else
        old = (char *)-1;
    pthread_mutex_unlock(&lock);
    if (old == (char *)-1)
        errno = ENOMEM;
    return old;
}
