/* Included before a driver that is timed: its threads are pinned, and repeat the driver's work. It
   is called as `driver TIMES CPU ..`, with a processor for each thread, blocks of 8 bytes, and
   prints what the programs of bench/clock print.

   With APART each block's size is rounded up to whole lines, so that blocks of allocators with size
   classes lie on lines of their own: nothing else differs from the driver as it is. */
#ifndef TIMED_H
#define TIMED_H

#include <pthread.h>
#include <sched.h>
#include <stdint.h>
#include <stdio.h>
#include <stdlib.h>
#include <string.h>
#include <sys/resource.h>
#include <time.h>

#ifdef __cplusplus
#include <new>
#define _Alignas(bytes) alignas(bytes)
#endif

#ifdef APART
static inline void *take_lines(size_t size) { return malloc((size + 63) / 64 * 64); }
#define malloc take_lines
#ifdef __cplusplus
void *operator new(size_t size) { return take_lines(size); }
void operator delete(void *block) noexcept { free(block); }
void operator delete(void *block, size_t) noexcept { free(block); }
#endif
#endif

#include "driver.h"

static struct {
    _Alignas(256) long times;
    int cpus[MOST_THREADS];
} timed;

static struct {
    _Alignas(256) long long begin, end, voluntary, involuntary, busy;
} threads_of[MOST_THREADS];

static inline long long now(clockid_t clock)
{
    struct timespec at;
    clock_gettime(clock, &at);
    return at.tv_sec * 1000000000LL + at.tv_nsec;
}

static inline void *begin_timed(void *number)
{
    unsigned own = (unsigned)(uintptr_t)number;
    struct rusage before, after;
    cpu_set_t set;
    CPU_ZERO(&set);
    CPU_SET(timed.cpus[own], &set);
    sched_setaffinity(0, sizeof set, &set);
    await_all();
    getrusage(RUSAGE_THREAD, &before);
    long long busy = now(CLOCK_THREAD_CPUTIME_ID);
    threads_of[own].begin = now(CLOCK_MONOTONIC);
    for (long it = 0; it < timed.times; it++)
        run.work(own);
    threads_of[own].end = now(CLOCK_MONOTONIC);
    threads_of[own].busy = now(CLOCK_THREAD_CPUTIME_ID) - busy;
    getrusage(RUSAGE_THREAD, &after);
    threads_of[own].voluntary = after.ru_nvcsw - before.ru_nvcsw;
    threads_of[own].involuntary = after.ru_nivcsw - before.ru_nivcsw;
    await_all();
    return NULL;
}

/* From the first thread's begin to the last one's end, and what came between. */
static inline void print_times(void)
{
    long long begin = threads_of[0].begin, end = 0, voluntary = 0, involuntary = 0, away = 0;
    for (unsigned it = 0; it < run.threads; it++) {
        begin = threads_of[it].begin < begin ? threads_of[it].begin : begin;
        end = threads_of[it].end > end ? threads_of[it].end : end;
        voluntary += threads_of[it].voluntary;
        involuntary += threads_of[it].involuntary;
        away += threads_of[it].end - threads_of[it].begin - threads_of[it].busy;
    }
    printf("result 0\nns %lld\nswitches %lld %lld away %lld\n", end - begin, voluntary, involuntary,
           away);
}

static inline int run_timed(int count, char **words, void (*prepare)(void), void (*work)(unsigned))
{
    static pthread_t threads[MOST_THREADS];
    run.threads = (unsigned)count - 2;
    run.size = 8;
    run.work = work;
    timed.times = strtol(words[1], NULL, 10);
    pthread_barrier_init(&run.all, NULL, run.threads + 1);
    pthread_barrier_init(&run.workers, NULL, run.threads);
    for (unsigned it = 0; it < run.threads; it++) {
        timed.cpus[it] = atoi(words[it + 2]);
        pthread_create(&threads[it], NULL, begin_timed, (void *)(uintptr_t)it);
    }
    if (prepare != NULL)
        prepare();
    await_all();
    await_all();
    for (unsigned it = 0; it < run.threads; it++)
        pthread_join(threads[it], NULL);
    print_times();
    return 0;
}

#define run_driver run_timed

#endif
