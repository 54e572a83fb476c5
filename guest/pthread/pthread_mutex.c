// Mutexes: plain, recursive and checking.
#include "pthread_internal.h"

int pthread_mutex_init(pthread_mutex_t *mutex, const pthread_mutexattr_t *attr)
{
    *mutex = (pthread_mutex_t){.kind = attr != NULL ? attr->kind : PTHREAD_MUTEX_NORMAL};
    return 0;
}

int pthread_mutex_destroy(pthread_mutex_t *mutex)
{
    return mutex->word == FREE ? 0 : EBUSY;
}

// Whether the caller holds a mutex of a kind that knows its holder. No other thread writes the caller's number.
static int holds(const pthread_mutex_t *mutex)
{
    return __atomic_load_n(&mutex->holder, __ATOMIC_RELAXED) == pthread_self();
}

static int hold(pthread_mutex_t *mutex)
{
    if (mutex->kind != PTHREAD_MUTEX_NORMAL) {
        __atomic_store_n(&mutex->holder, (uint32_t)pthread_self(), __ATOMIC_RELAXED);
        mutex->times = 1;
    }
    return 0;
}

int pthread_mutex_lock(pthread_mutex_t *mutex)
{
    if (mutex->kind != PTHREAD_MUTEX_NORMAL && holds(mutex)) {
        if (mutex->kind == PTHREAD_MUTEX_ERRORCHECK)
            return EDEADLK;
        return mutex->times == ALL ? EAGAIN : (mutex->times++, 0);
    }
    lock(&mutex->word);
    return hold(mutex);
}

int pthread_mutex_trylock(pthread_mutex_t *mutex)
{
    if (mutex->kind == PTHREAD_MUTEX_RECURSIVE && holds(mutex))
        return mutex->times == ALL ? EAGAIN : (mutex->times++, 0);
    return try_lock(&mutex->word) ? hold(mutex) : EBUSY;
}

int pthread_mutex_unlock(pthread_mutex_t *mutex)
{
    if (mutex->kind != PTHREAD_MUTEX_NORMAL) {
        if (!holds(mutex))
            return EPERM;
        if (--mutex->times > 0)
            return 0;
        __atomic_store_n(&mutex->holder, 0, __ATOMIC_RELAXED);
    }
    unlock(&mutex->word);
    return 0;
}
