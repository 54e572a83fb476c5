// Waits that end after a time, by the clock of time.c. Who waits so goes round and looks, and reads the word each time round, where a wait
// without a time makes no step.
#include <errno.h>
#include <pthread.h>
#include <semaphore.h>
#include <threads.h>
#include "clock.h"

// Tries again until the answer is another one than `busy`, or it is late.
#define UNTIL(until, busy, call)                                                                                                           \
    uint64_t end;                                                                                                                          \
    int answer;                                                                                                                            \
    while ((answer = (call)) == (busy)) {                                                                                                  \
        if (predator_time(until, &end) != 0)                                                                                               \
            return EINVAL;                                                                                                                 \
        if (predator_clock() >= end)                                                                                                       \
            return ETIMEDOUT;                                                                                                              \
        sched_yield();                                                                                                                     \
    }                                                                                                                                      \
    return answer

int pthread_mutex_timedlock(pthread_mutex_t *mutex, const struct timespec *until)
{
    // (the holder that asks again is an error at once, or holds it twice)
    if (mutex->kind != PTHREAD_MUTEX_NORMAL && mutex->holder == pthread_self())
        return pthread_mutex_lock(mutex);
    UNTIL(until, EBUSY, pthread_mutex_trylock(mutex));
}

int pthread_rwlock_timedrdlock(pthread_rwlock_t *lock, const struct timespec *until)
{
    UNTIL(until, EBUSY, pthread_rwlock_tryrdlock(lock));
}

int pthread_rwlock_timedwrlock(pthread_rwlock_t *lock, const struct timespec *until)
{
    UNTIL(until, EBUSY, pthread_rwlock_trywrlock(lock));
}

static int take(sem_t *semaphore, const struct timespec *until)
{
    UNTIL(until, EAGAIN, sem_trywait(semaphore) == 0 ? 0 : errno);
}

int sem_timedwait(sem_t *semaphore, const struct timespec *until)
{
    int error = take(semaphore, until);
    return error == 0 ? 0 : (errno = error, -1);
}

// A signal that comes meanwhile is seen by the count of them, whoever else is woken by it.
int pthread_cond_timedwait(pthread_cond_t *cond, pthread_mutex_t *mutex, const struct timespec *until)
{
    uint64_t end;
    uint32_t seen = __atomic_load_n(&cond->signals, __ATOMIC_SEQ_CST), times = mutex->times;
    int is_late = 0;
    if (predator_time(until, &end) != 0)
        return EINVAL;
    if (mutex->kind != PTHREAD_MUTEX_NORMAL) {
        if (mutex->holder != pthread_self())
            return EPERM;
        mutex->times = 1;
    }
    pthread_mutex_unlock(mutex);
    while (__atomic_load_n(&cond->signals, __ATOMIC_SEQ_CST) == seen && !(is_late = predator_clock() >= end))
        sched_yield();
    pthread_mutex_lock(mutex);
    if (mutex->kind != PTHREAD_MUTEX_NORMAL)
        mutex->times = times;
    return is_late ? ETIMEDOUT : 0;
}

// There is one clock, whatever its name.
int pthread_condattr_setclock(pthread_condattr_t *attr, clockid_t clock)
{
    attr->clock = (int)clock;
    return 0;
}

int pthread_condattr_getclock(const pthread_condattr_t *attr, clockid_t *clock)
{
    *clock = (clockid_t)attr->clock;
    return 0;
}

// ---- threads.h

static int status(int error)
{
    return error == 0 ? thrd_success : error == ETIMEDOUT ? thrd_timedout : thrd_error;
}

int mtx_timedlock(mtx_t *mutex, const struct timespec *until)
{
    return status(pthread_mutex_timedlock(mutex, until));
}

int cnd_timedwait(cnd_t *cond, mtx_t *mutex, const struct timespec *until)
{
    return status(pthread_cond_timedwait(cond, mutex, until));
}

int thrd_sleep(const struct timespec *time, struct timespec *rest)
{
    return nanosleep(time, rest) == 0 ? 0 : -2;
}
