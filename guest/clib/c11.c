// C11's threads over those of pthread.h.
#include <errno.h>
#include <pthread.h>
#include <threads.h>

static int status(int error)
{
    return error == 0 ? thrd_success : error == EBUSY ? thrd_busy : error == EAGAIN || error == ENOMEM ? thrd_nomem : thrd_error;
}

// (a result that is an int comes in the same register as one that is a pointer)
int thrd_create(thrd_t *thread, thrd_start_t run, void *argument)
{
    return status(pthread_create(thread, NULL, (void *(*)(void *))(void *)run, argument));
}

int thrd_join(thrd_t thread, int *result)
{
    void *got = NULL;
    int error = pthread_join(thread, &got);
    if (error == 0 && result != NULL)
        *result = (int)(intptr_t)got;
    return status(error);
}

int thrd_detach(thrd_t thread)
{
    return status(pthread_detach(thread));
}

_Noreturn void thrd_exit(int result)
{
    pthread_exit((void *)(intptr_t)result);
}

thrd_t thrd_current(void)
{
    return pthread_self();
}

int thrd_equal(thrd_t one, thrd_t other)
{
    return one == other;
}

void thrd_yield(void)
{
    sched_yield();
}

int mtx_init(mtx_t *mutex, int kind)
{
    pthread_mutexattr_t attr = {.kind = kind & mtx_recursive ? PTHREAD_MUTEX_RECURSIVE : PTHREAD_MUTEX_NORMAL};
    return status(pthread_mutex_init(mutex, &attr));
}

void mtx_destroy(mtx_t *mutex)
{
    pthread_mutex_destroy(mutex);
}

int mtx_lock(mtx_t *mutex)
{
    return status(pthread_mutex_lock(mutex));
}

int mtx_trylock(mtx_t *mutex)
{
    return status(pthread_mutex_trylock(mutex));
}

int mtx_unlock(mtx_t *mutex)
{
    return status(pthread_mutex_unlock(mutex));
}

int cnd_init(cnd_t *cond)
{
    return status(pthread_cond_init(cond, NULL));
}

void cnd_destroy(cnd_t *cond)
{
    pthread_cond_destroy(cond);
}

int cnd_wait(cnd_t *cond, mtx_t *mutex)
{
    return status(pthread_cond_wait(cond, mutex));
}

int cnd_signal(cnd_t *cond)
{
    return status(pthread_cond_signal(cond));
}

int cnd_broadcast(cnd_t *cond)
{
    return status(pthread_cond_broadcast(cond));
}

int tss_create(tss_t *key, tss_dtor_t destructor)
{
    return status(pthread_key_create(key, destructor));
}

void tss_delete(tss_t key)
{
    pthread_key_delete(key);
}

int tss_set(tss_t key, void *value)
{
    return status(pthread_setspecific(key, value));
}

void *tss_get(tss_t key)
{
    return pthread_getspecific(key);
}

void call_once(once_flag *once, void (*run)(void))
{
    pthread_once(once, run);
}
