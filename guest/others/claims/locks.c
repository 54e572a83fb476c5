// How often does the program lock and release its first mutex? The linker takes these two (--wrap).
#include <pthread.h>
#include <stdatomic.h>
#include <stdio.h>

int __real_pthread_mutex_lock(pthread_mutex_t *mutex);
int __wrap_pthread_mutex_lock(pthread_mutex_t *mutex);
int __real_pthread_mutex_unlock(pthread_mutex_t *mutex);
int __wrap_pthread_mutex_unlock(pthread_mutex_t *mutex);

static pthread_mutex_t *_Atomic first;
static atomic_int times;

static void count(pthread_mutex_t *mutex)
{
    pthread_mutex_t *none = NULL;
    atomic_compare_exchange_strong(&first, &none, mutex);
    if (first == mutex)
        atomic_fetch_add(&times, 1);
}

int __wrap_pthread_mutex_lock(pthread_mutex_t *mutex)
{
    count(mutex);
    return __real_pthread_mutex_lock(mutex);
}

int __wrap_pthread_mutex_unlock(pthread_mutex_t *mutex)
{
    count(mutex);
    return __real_pthread_mutex_unlock(mutex);
}

__attribute__((destructor)) static void print_end(void)
{
    printf("mutex: %p, %d times\n", (void *)first, times);
}
