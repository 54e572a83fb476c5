// Locks for readers and writers.
#include "pthread_internal.h"

int pthread_rwlock_init(pthread_rwlock_t *rw, const pthread_rwlockattr_t *attr)
{
    (void)attr;
    *rw = (pthread_rwlock_t){0, 0, 0};
    return 0;
}

int pthread_rwlock_destroy(pthread_rwlock_t *rw)
{
    return rw->word == 0 ? 0 : EBUSY;
}

int pthread_rwlock_tryrdlock(pthread_rwlock_t *rw)
{
    uint32_t seen = atomic_load(word_of(&rw->word));
    while (seen < ALL - 1)
        if (atomic_compare_exchange_weak(word_of(&rw->word), &seen, seen + 1))
            return 0;
    return seen == ALL ? EBUSY : EAGAIN;
}

int pthread_rwlock_trywrlock(pthread_rwlock_t *rw)
{
    uint32_t seen = 0;
    return atomic_compare_exchange_strong(word_of(&rw->word), &seen, ALL) ? 0 : EBUSY;
}

// Tries until it has the lock, and waits for a change between. Who comes to wait says so before it tries once more.
static int take(pthread_rwlock_t *rw, int (*take_now)(pthread_rwlock_t *))
{
    int answer = take_now(rw);
    if (answer != EBUSY)
        return answer;
    atomic_fetch_add(word_of(&rw->waiters), 1);
    for (;;) {
        uint32_t seen = atomic_load(word_of(&rw->changes));
        if ((answer = take_now(rw)) != EBUSY)
            break;
        predator_wait(&rw->changes, seen);
    }
    atomic_fetch_sub(word_of(&rw->waiters), 1);
    return answer;
}

int pthread_rwlock_rdlock(pthread_rwlock_t *rw)
{
    return take(rw, pthread_rwlock_tryrdlock);
}

int pthread_rwlock_wrlock(pthread_rwlock_t *rw)
{
    return take(rw, pthread_rwlock_trywrlock);
}

int pthread_rwlock_unlock(pthread_rwlock_t *rw)
{
    uint32_t readers = 1;
    if (atomic_load(word_of(&rw->word)) == ALL)
        atomic_store(word_of(&rw->word), 0);
    else
        readers = atomic_fetch_sub(word_of(&rw->word), 1);
    if (readers == 1 && atomic_load(word_of(&rw->waiters)) > 0) {
        atomic_fetch_add(word_of(&rw->changes), 1);
        predator_wake(&rw->changes, ALL);
    }
    return 0;
}
