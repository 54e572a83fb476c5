/* The threads and locks of C11, which are those of POSIX by other names. The C library's own don't
 * call these. */
#include "runtime.h"

#include <threads.h>

static int status(int error)
{
    switch (error) {
    case 0:
        return thrd_success;
    case ENOMEM:
        return thrd_nomem;
    case ETIMEDOUT:
        return thrd_timedout;
    case EBUSY:
        return thrd_busy;
    default:
        return thrd_error;
    }
}

SHOWN int thrd_create(thrd_t *thread, thrd_start_t start, void *argument)
{
    return status(create(thread, 0, 0, start, argument));
}
SHOWN int thrd_join(thrd_t thread, int *result)
{
    void *its;
    int error = pthread_join(thread, &its);
    if (!error && result)
        *result = (int)(long)its;
    return status(error);
}
SHOWN int thrd_detach(thrd_t thread) { return status(pthread_detach(thread)); }
SHOWN void thrd_exit(int result) { pthread_exit((void *)(long)result); }
SHOWN void thrd_yield(void) { sched_yield(); }
SHOWN int thrd_sleep(const struct timespec *time, struct timespec *rest_of_it)
{
    int error = nanosleep(time, rest_of_it) ? errno : 0;
    return error == 0 ? 0 : error == EINTR ? -1 : -2;
}

SHOWN int mtx_lock(mtx_t *lock) { return status(pthread_mutex_lock((pthread_mutex_t *)lock)); }
SHOWN int mtx_trylock(mtx_t *lock)
{
    return status(pthread_mutex_trylock((pthread_mutex_t *)lock));
}
SHOWN int mtx_timedlock(mtx_t *lock, const struct timespec *time)
{
    return status(pthread_mutex_timedlock((pthread_mutex_t *)lock, time));
}
SHOWN int mtx_unlock(mtx_t *lock) { return status(pthread_mutex_unlock((pthread_mutex_t *)lock)); }
SHOWN int cnd_wait(cnd_t *condition, mtx_t *lock)
{
    return status(pthread_cond_wait((pthread_cond_t *)condition, (pthread_mutex_t *)lock));
}
SHOWN int cnd_timedwait(cnd_t *condition, mtx_t *lock, const struct timespec *time)
{
    return status(
        pthread_cond_timedwait((pthread_cond_t *)condition, (pthread_mutex_t *)lock, time));
}
SHOWN int cnd_signal(cnd_t *condition)
{
    return status(pthread_cond_signal((pthread_cond_t *)condition));
}
SHOWN int cnd_broadcast(cnd_t *condition)
{
    return status(pthread_cond_broadcast((pthread_cond_t *)condition));
}
SHOWN void call_once(once_flag *once, void (*function)(void))
{
    pthread_once((pthread_once_t *)once, function);
}
