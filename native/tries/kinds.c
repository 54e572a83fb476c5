/* One program for what a trace has to record: atomics, a mutex, a condition, a barrier, spinning with sched_yield, blocks of each
   function that makes them, a library's functions, wide and unaligned accesses. */
#define _GNU_SOURCE
#include <pthread.h>
#include <sched.h>
#include <stdatomic.h>
#include <stdint.h>
#include <stdio.h>
#include <stdlib.h>
#include <string.h>

#define THREADS 4
#define ROUNDS 1000

static pthread_mutex_t lock = PTHREAD_MUTEX_INITIALIZER;
static pthread_cond_t turned = PTHREAD_COND_INITIALIZER;
static pthread_barrier_t meet;
static int turn, counted;
static atomic_long added;
static atomic_int swapped, spinning;
static _Alignas(64) volatile uint8_t bytes[64];

static void *work(void *arg)
{
    long me = (long)arg;
    pthread_barrier_wait(&meet);
    for (int i = 0; i < ROUNDS; i++) {
        atomic_fetch_add(&added, 1);
        int seen = atomic_load(&swapped);
        while (!atomic_compare_exchange_weak(&swapped, &seen, seen + 1))
            ;
        pthread_mutex_lock(&lock);
        counted++;
        pthread_mutex_unlock(&lock);
        bytes[me] = bytes[me] + 1;
    }
    for (int i = 0; i < 50; i++) {
        pthread_mutex_lock(&lock);
        while (turn % THREADS != me)
            pthread_cond_wait(&turned, &lock);
        turn++;
        pthread_cond_broadcast(&turned);
        pthread_mutex_unlock(&lock);
    }
    for (int i = 0; i < 50; i++) {
        while (atomic_load(&spinning) % THREADS != me)
            sched_yield();
        atomic_fetch_add(&spinning, 1);
    }
    void *kept[8];
    void *aligned = 0;
    kept[0] = malloc(24);
    kept[1] = calloc(3, 8);
    kept[2] = realloc(malloc(10), 5000);
    kept[3] = aligned_alloc(64, 128);
    kept[4] = posix_memalign(&aligned, 256, 100) ? 0 : aligned;
    kept[5] = strdup("a text");
    kept[6] = malloc(3 << 20);
    kept[7] = realloc(malloc(100), 1L << 60); /* refused */
    memset(kept[6], 1, 3 << 20);
    for (int i = 0; i < 7; i++)
        free(kept[i]);
    pthread_barrier_wait(&meet);
    return (void *)(counted == THREADS * ROUNDS && kept[7] == 0 ? 1L : 0L);
}

int main(void)
{
    pthread_t thread[THREADS];
    long right = 0;
    pthread_barrier_init(&meet, 0, THREADS);
    for (long i = 0; i < THREADS; i++)
        pthread_create(&thread[i], 0, work, (void *)i);
    for (int i = 0; i < THREADS; i++) {
        void *its;
        pthread_join(thread[i], &its);
        right += (long)its;
    }
    printf("right %ld added %ld swapped %d counted %d turn %d spinning %d\n", right, added, swapped, counted, turn, spinning);
    return right == THREADS && added == THREADS * ROUNDS ? 7 : 1;
}
