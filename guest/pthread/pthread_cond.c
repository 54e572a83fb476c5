// Condition variables.
#include "pthread_internal.h"

int pthread_cond_init(pthread_cond_t *cond, const pthread_condattr_t *attr)
{
    (void)attr;
    *cond = (pthread_cond_t){0};
    return 0;
}

int pthread_cond_destroy(pthread_cond_t *cond)
{
    (void)cond;
    return 0;
}

// A signal between the release of the mutex and the wait changes the number, so that the wait doesn't begin.
int pthread_cond_wait(pthread_cond_t *cond, pthread_mutex_t *mutex)
{
    uint32_t seen = atomic_load(word_of(&cond->signals)), times = 1;
    if (mutex->kind != PTHREAD_MUTEX_NORMAL) {
        if (!holds(mutex))
            return EPERM;
        times = mutex->times;
        mutex->times = 1;
    }
    pthread_mutex_unlock(mutex);
    predator_wait(&cond->signals, seen);
    pthread_mutex_lock(mutex);
    if (mutex->kind != PTHREAD_MUTEX_NORMAL)
        mutex->times = times;
    return 0;
}

int pthread_cond_signal(pthread_cond_t *cond)
{
    atomic_fetch_add(word_of(&cond->signals), 1);
    predator_wake(&cond->signals, 1);
    return 0;
}

int pthread_cond_broadcast(pthread_cond_t *cond)
{
    atomic_fetch_add(word_of(&cond->signals), 1);
    predator_wake(&cond->signals, ALL);
    return 0;
}
