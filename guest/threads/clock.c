// The clock goes on with each step, whoever makes it, and a wait for a time ends no sooner.
//
//> clock 1 1 1
//> slept 1 1 1 1
//> late 1 1 1 1 1
//> in time 1 1
//> wrong 1 1 1
#include <errno.h>
#include <poll.h>
#include <semaphore.h>
#include <stdio.h>
#include <sys/time.h>
#include <threads.h>
#include <time.h>
#include <unistd.h>
#include "check.h"

static pthread_mutex_t lock = PTHREAD_MUTEX_INITIALIZER;
static pthread_cond_t cond = PTHREAD_COND_INITIALIZER;
static pthread_rwlock_t rwlock = PTHREAD_RWLOCK_INITIALIZER;
static sem_t none;
static int is_there;

static uint64_t now(void)
{
    struct timespec time;
    clock_gettime(CLOCK_MONOTONIC, &time);
    return (uint64_t)time.tv_sec * 1000000000 + (uint64_t)time.tv_nsec;
}

static struct timespec in(uint64_t more)
{
    uint64_t then = now() + more;
    return (struct timespec){.tv_sec = (time_t)(then / 1000000000), .tv_nsec = (long)(then % 1000000000)};
}

// Holds all that the first thread waits for.
static void *hold(void *unused)
{
    (void)unused;
    pthread_mutex_lock(&lock);
    pthread_rwlock_wrlock(&rwlock);
    __atomic_store_n(&is_there, 1, __ATOMIC_SEQ_CST);
    while (__atomic_load_n(&is_there, __ATOMIC_SEQ_CST) == 1)
        usleep(1);
    pthread_rwlock_unlock(&rwlock);
    pthread_mutex_unlock(&lock);
    return NULL;
}

static void *signal_late(void *unused)
{
    (void)unused;
    usleep(20);
    pthread_mutex_lock(&lock);
    is_there = 3;
    pthread_cond_signal(&cond);
    pthread_mutex_unlock(&lock);
    return NULL;
}

static void try_clock(void)
{
    struct timespec least;
    struct timeval day;
    uint64_t first = now(), second = now();
    clock_getres(CLOCK_REALTIME, &least);
    gettimeofday(&day, NULL);
    printf("clock %d %d %d\n", second > first, least.tv_sec == 0 && least.tv_nsec == 1,
           time(NULL) == 0 && day.tv_sec == 0 && day.tv_usec >= (long)(second / 1000));
}

static void try_sleep(void)
{
    struct timespec short_time = {.tv_nsec = 30000}, rest = {.tv_nsec = 1}, then = in(20000);
    uint64_t first = now();
    int is_slept = nanosleep(&short_time, &rest) == 0 && rest.tv_nsec == 0 && now() >= first + 30000;
    first = now();
    int is_polled = poll(NULL, 0, 1) == 0 && now() >= first + 1000000;
    int is_absolute = clock_nanosleep(CLOCK_MONOTONIC, TIMER_ABSTIME, &then, NULL) == 0 && now() >= first;
    first = now();
    printf("slept %d %d %d %d\n", is_slept, is_polled, is_absolute, thrd_sleep(&short_time, NULL) == 0 && now() >= first + 30000);
}

static void try_late(void)
{
    pthread_t thread;
    pthread_create(&thread, NULL, hold, NULL);
    while (__atomic_load_n(&is_there, __ATOMIC_SEQ_CST) == 0)
        usleep(1);
    struct timespec until = in(20000);
    int by_mutex = pthread_mutex_timedlock(&lock, &until) == ETIMEDOUT && mtx_timedlock(&lock, &until) == thrd_timedout;
    int by_lock = pthread_rwlock_timedrdlock(&rwlock, &until) == ETIMEDOUT && pthread_rwlock_timedwrlock(&rwlock, &until) == ETIMEDOUT;
    int by_semaphore = sem_timedwait(&none, &until) == -1 && errno == ETIMEDOUT;
    __atomic_store_n(&is_there, 2, __ATOMIC_SEQ_CST);
    pthread_join(thread, NULL);
    pthread_mutex_lock(&lock);
    until = in(20000);
    int by_cond = pthread_cond_timedwait(&cond, &lock, &until) == ETIMEDOUT;
    int is_held = pthread_mutex_trylock(&lock) == EBUSY;
    pthread_mutex_unlock(&lock);
    printf("late %d %d %d %d %d\n", by_mutex, by_lock, by_semaphore, by_cond, is_held);
}

static void try_in_time(void)
{
    pthread_t thread;
    struct timespec until = in(1000000000);
    pthread_mutex_lock(&lock);
    pthread_create(&thread, NULL, signal_late, NULL);
    int answer = 0;
    while (is_there != 3 && answer == 0)
        answer = pthread_cond_timedwait(&cond, &lock, &until);
    pthread_mutex_unlock(&lock);
    pthread_join(thread, NULL);
    printf("in time %d %d\n", answer == 0, pthread_mutex_timedlock(&lock, &until) == 0);
}

static void try_wrong(void)
{
    struct timespec none_such = {.tv_nsec = 1000000000};
    int is_refused = nanosleep(&none_such, NULL) == -1 && errno == EINVAL;
    printf("wrong %d %d %d\n", is_refused, pthread_mutex_timedlock(&lock, &none_such) == EINVAL,
           pthread_cond_timedwait(&cond, &lock, &none_such) == EINVAL);
}

int main(void)
{
    sem_init(&none, 0, 0);
    try_clock();
    try_sleep();
    try_late();
    try_in_time();
    try_wrong();
    return 0;
}
