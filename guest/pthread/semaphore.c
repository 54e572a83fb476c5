// Semaphores.
#include "pthread_internal.h"

static int sem_refused(int error)
{
#ifdef PREDATOR_C_LIBRARY
    errno = error;
#endif
    (void)error;
    return -1;
}

int sem_init(sem_t *semaphore, int shared, unsigned value)
{
    (void)shared;
    if (value > SEM_VALUE_MAX)
        return sem_refused(EINVAL);
    *semaphore = (sem_t){.value = value};
    return 0;
}

int sem_destroy(sem_t *semaphore)
{
    (void)semaphore;
    return 0;
}

int sem_trywait(sem_t *semaphore)
{
    uint32_t seen = atomic_load(word_of(&semaphore->value));
    while (seen > 0)
        if (atomic_compare_exchange_weak(word_of(&semaphore->value), &seen, seen - 1))
            return 0;
    return sem_refused(EAGAIN);
}

// Who comes to wait says so before it looks once more.
int sem_wait(sem_t *semaphore)
{
    if (sem_trywait(semaphore) == 0)
        return 0;
    atomic_fetch_add(word_of(&semaphore->waiters), 1);
    while (sem_trywait(semaphore) != 0)
        predator_wait(&semaphore->value, 0);
    atomic_fetch_sub(word_of(&semaphore->waiters), 1);
    return 0;
}

int sem_post(sem_t *semaphore)
{
    uint32_t seen = atomic_load(word_of(&semaphore->value));
    do {
        if (seen == SEM_VALUE_MAX)
            return sem_refused(EOVERFLOW);
    } while (!atomic_compare_exchange_weak(word_of(&semaphore->value), &seen, seen + 1));
    if (atomic_load(word_of(&semaphore->waiters)) > 0)
        predator_wake(&semaphore->value, 1);
    return 0;
}

int sem_getvalue(sem_t *semaphore, int *value)
{
    *value = (int)atomic_load(word_of(&semaphore->value));
    return 0;
}
