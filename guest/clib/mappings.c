// Anonymous mappings, each a block of the run's heap.
#include <errno.h>
#include <pthread.h>
#include <stdint.h>
#include <sys/mman.h>
#include "clear.h"
#include "heap.h"

#define PAGE 4096u

// What is mapped, in a list under a lock. It stands behind the mapping, in its block.
struct mapping {
    struct mapping *next;
    char *block, *first, *end;
};

ALONE static struct {
    pthread_mutex_t lock;
    struct mapping *first;
} mappings = {.lock = PTHREAD_MUTEX_INITIALIZER};

static void *refused(int error)
{
    errno = error;
    return MAP_FAILED;
}

static int answer(int error)
{
    if (error == 0)
        return 0;
    errno = error;
    return -1;
}

void *mmap(void *wish, size_t length, int protection, int flags, int file, off_t offset)
{
    (void)wish, (void)file, (void)offset;
    if (!(flags & MAP_ANONYMOUS))
        return refused(ENODEV);
    if (flags & MAP_FIXED || protection & PROT_EXEC)
        return refused(ENOTSUP);
    if (length == 0 || !(flags & (MAP_PRIVATE | MAP_SHARED)))
        return refused(EINVAL);
    size_t pages = (length + PAGE - 1) / PAGE * PAGE;
    if (length > SIZE_MAX - 2 * PAGE - sizeof(struct mapping))
        return refused(ENOMEM);
    char *block = predator_alloc(pages + PAGE - 16 + sizeof(struct mapping));
    if (block == NULL)
        return refused(ENOMEM);
    char *first = (char *)(((uintptr_t)block + PAGE - 1) & ~(uintptr_t)(PAGE - 1));
    note_part(block, first, pages);
    clear_words(first, pages);
    struct mapping *it = (struct mapping *)(first + pages);
    pthread_mutex_lock(&mappings.lock);
    *it = (struct mapping){mappings.first, block, first, first + pages};
    mappings.first = it;
    pthread_mutex_unlock(&mappings.lock);
    return first;
}

int munmap(void *address, size_t length)
{
    char *from = address;
    if ((uintptr_t)from % PAGE != 0 || length == 0)
        return answer(EINVAL);
    pthread_mutex_lock(&mappings.lock);
    for (struct mapping **at = &mappings.first, *it; (it = *at) != NULL;) {
        if (it->first >= from && (size_t)(it->end - from) <= (length + PAGE - 1) / PAGE * PAGE) {
            *at = it->next;
            note_end(it->first);
            predator_free(it->block);
        } else {
            at = &it->next;
        }
    }
    pthread_mutex_unlock(&mappings.lock);
    return 0;
}

int mprotect(void *address, size_t length, int protection)
{
    (void)length;
    if ((uintptr_t)address % PAGE != 0)
        return answer(EINVAL);
    return answer(protection == (PROT_READ | PROT_WRITE) ? 0 : ENOTSUP);
}

int madvise(void *address, size_t length, int advice)
{
    if ((uintptr_t)address % PAGE != 0)
        return answer(EINVAL);
    if (advice == MADV_DONTNEED)
        clear_words(address, length / PAGE * PAGE);
    return 0;
}

// (which keeps the bytes, whatever the advice)
int posix_madvise(void *address, size_t length, int advice)
{
    (void)length, (void)advice;
    return (uintptr_t)address % PAGE != 0 ? EINVAL : 0;
}

int mlock(const void *address, size_t length)
{
    (void)address, (void)length;
    return 0;
}

int munlock(const void *address, size_t length)
{
    (void)address, (void)length;
    return 0;
}

int mlockall(int flags)
{
    (void)flags;
    return 0;
}

int munlockall(void)
{
    return 0;
}
