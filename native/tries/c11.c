/* The threads and locks of C11, and a wait by a clock that never goes back. */
#define _GNU_SOURCE
#include <pthread.h>
#include <stdio.h>
#include <threads.h>
#include <time.h>

#define THREADS 4

static mtx_t lock;
static cnd_t turned;
static once_flag once = ONCE_FLAG_INIT;
static tss_t own;
static int turn, counted, begun, late, busy;
static volatile int counters[16] __attribute__((aligned(128)));

static void begin(void) { begun++; }

static struct timespec in_ms(clockid_t clock, long ms)
{
    struct timespec time;
    clock_gettime(clock, &time);
    time.tv_nsec += ms * 1000000;
    time.tv_sec += time.tv_nsec / 1000000000;
    time.tv_nsec %= 1000000000;
    return time;
}

static int work(void *arg)
{
    long me = (long)arg;
    call_once(&once, begin);
    tss_set(own, arg);
    for (int i = 0; i < 2000; i++)
        counters[me] = counters[me] + 1;
    mtx_lock(&lock);
    busy += mtx_trylock(&lock) == thrd_busy;
    while (turn != me)
        cnd_wait(&turned, &lock);
    turn++;
    counted++;
    cnd_broadcast(&turned);
    mtx_unlock(&lock);
    if (me == 0)
        thrd_exit(10);
    return (long)tss_get(own) + 10;
}

int main(void)
{
    thrd_t thread[THREADS];
    int result, sum = 0;
    pthread_condattr_t attributes;
    pthread_cond_t never;
    pthread_mutex_t mine = PTHREAD_MUTEX_INITIALIZER;
    struct timespec ms = {0, 1000000}, soon;
    mtx_init(&lock, mtx_timed);
    cnd_init(&turned);
    tss_create(&own, 0);
    for (long i = 0; i < THREADS; i++)
        if (thrd_create(&thread[i], work, (void *)i) != thrd_success)
            return 3;
    thrd_sleep(&ms, 0);
    thrd_yield();
    for (int i = 0; i < THREADS; i++) {
        thrd_join(thread[i], &result);
        sum += result;
    }
    mtx_lock(&lock);
    soon = in_ms(CLOCK_REALTIME, 5);
    late += cnd_timedwait(&turned, &lock, &soon) == thrd_timedout;
    soon = in_ms(CLOCK_REALTIME, 5);
    late += mtx_timedlock(&lock, &soon) == thrd_timedout;
    pthread_condattr_init(&attributes);
    pthread_condattr_setclock(&attributes, CLOCK_MONOTONIC);
    pthread_cond_init(&never, &attributes);
    pthread_mutex_lock(&mine);
    struct timespec before = in_ms(CLOCK_MONOTONIC, 0), until = in_ms(CLOCK_MONOTONIC, 50), after;
    late += pthread_cond_timedwait(&never, &mine, &until) != 0;
    after = in_ms(CLOCK_MONOTONIC, 0);
    long waited = (after.tv_sec - before.tv_sec) * 1000 + (after.tv_nsec - before.tv_nsec) / 1000000;
    printf("begun %d counted %d busy %d late %d sum %d waited %d\n", begun, counted, busy, late, sum, waited >= 50);
    return 0;
}
