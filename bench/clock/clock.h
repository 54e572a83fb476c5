// What the programs of this folder have in common: each is one source, for predator's harts
// (guests.sh) and for this machine.
//
//     -DPADDED      the repaired form, by alignment alone: what is OWN begins with a line
//     -DTHREADS=N   how many threads work (4); the first one makes them and waits
//     -DLINE=N      how long a line is (64)
//     -DROUNDS=N    how much each thread does, in the place of the usual amount
//
// For this machine the words of the call are ROUNDS and then a processor for each thread, on which
// it is pinned. It prints the result, the nanoseconds from the first thread's begin to the last
// one's end, how often the threads were switched meanwhile, of themselves and not, and for how many
// nanoseconds they had no processor.
#ifndef CLOCK_H
#define CLOCK_H

#ifdef __riscv
#include "predator.h"
#else
#include <pthread.h>
#include <sched.h>
#include <stdint.h>
#include <stdio.h>
#include <stdlib.h>
#include <sys/resource.h>
#include <time.h>
#endif

#ifndef THREADS
#define THREADS 4
#endif
#ifndef LINE
#define LINE 64
#endif
#ifdef ROUNDS
#define ROUNDS_OR(usual) ROUNDS
#else
#define ROUNDS_OR(usual) usual
#endif

// What begins with a line in any case, and what does in the repaired form.
#define APART __attribute__((aligned(LINE)))
#ifdef PADDED
#define OWN APART
#else
#define OWN
#endif

#define LOAD(word)           __atomic_load_n(&(word), __ATOMIC_RELAXED)
#define STORE(word, value)   __atomic_store_n(&(word), value, __ATOMIC_RELAXED)
#define ACQUIRE(word)        __atomic_load_n(&(word), __ATOMIC_ACQUIRE)
#define RELEASE(word, value) __atomic_store_n(&(word), value, __ATOMIC_RELEASE)
#define ADD(word, value)     __atomic_fetch_add(&(word), value, __ATOMIC_ACQ_REL)
#define SWAP(word, value)    __atomic_exchange_n(&(word), value, __ATOMIC_ACQ_REL)
#define FENCE()              __atomic_thread_fence(__ATOMIC_SEQ_CST)

// Spins while it is so. On this machine it lets others have the processor after a while, in case
// that what it waits for has none.
#ifdef __riscv
#define SPIN_WHILE(condition)                                                                      \
    while (condition)                                                                              \
        ;                                                                                          \
    (void)0
#else
#define SPIN_WHILE(condition)                                                                      \
    for (uint32_t spins = 0; condition;)                                                           \
        if (++spins % 4096 == 0)                                                                   \
    sched_yield()
#endif

// Sets the word if it has the value: whether it had.
static inline int try_set(uint32_t *word, uint32_t had, uint32_t value)
{
    return __atomic_compare_exchange_n(word, &had, value, 0, __ATOMIC_SEQ_CST, __ATOMIC_SEQ_CST);
}

// A lock that spins.
static inline void lock(uint32_t *word)
{
    while (SWAP(*word, 1) != 0)
        SPIN_WHILE(LOAD(*word) != 0);
}

static inline void unlock(uint32_t *word) { RELEASE(*word, 0); }

// Numbers that look random.
static inline uint32_t next(uint32_t value) { return value * 1664525u + 1013904223u; }

// So many times eight steps or so of arithmetic that touch no memory.
static inline uint32_t spend(uint32_t value, uint32_t times)
{
    for (uint32_t i = 0; i < times; i++) {
        value ^= value << 13;
        value ^= value >> 17;
        value ^= value << 5;
        __asm__ volatile("" : "+r"(value));
    }
    return value;
}

static inline void nothing(void) {}

#ifdef __riscv

// RUN(SETUP, WORK, RESULT, USUAL): `main`, which calls SETUP(), then WORK(number, rounds) in each
// thread, and puts out what RESULT() gives.
#define RUN(setup, work, result, usual)                                                            \
    static int thread(void *number)                                                                \
    {                                                                                              \
        work((uint32_t)(uintptr_t)number, ROUNDS_OR(usual));                                       \
        return 0;                                                                                  \
    }                                                                                              \
    int main(void)                                                                                 \
    {                                                                                              \
        int harts[THREADS];                                                                        \
        setup();                                                                                   \
        for (uint32_t i = 0; i < THREADS; i++)                                                     \
            harts[i] = predator_spawn(thread, (void *)(uintptr_t)i);                               \
        for (uint32_t i = 0; i < THREADS; i++)                                                     \
            if (harts[i] < 0 || predator_join(harts[i]) != 0)                                      \
                return 1;                                                                          \
        print("result ");                                                                          \
        print_number(result());                                                                    \
        print("\n");                                                                               \
        return 0;                                                                                  \
    }

#else

#define ALONE __attribute__((aligned(256)))

// What is known of a thread; it is touched before and after the work alone.
ALONE static struct clock_thread {
    pthread_t thread;
    int cpu;
    struct timespec began, ended, used_before, used_after;
    long voluntary, involuntary;
} clock_threads[THREADS];
ALONE static struct {
    pthread_barrier_t all;
    uint32_t rounds;
} clock_run;

static void clock_work(uint32_t number, uint32_t rounds);

static void *clock_run_thread(void *number)
{
    struct clock_thread *own = &clock_threads[(uintptr_t)number];
    struct rusage before, after;
    uint32_t rounds = clock_run.rounds;
    if (own->cpu >= 0) {
        cpu_set_t set;
        CPU_ZERO(&set);
        CPU_SET(own->cpu, &set);
        if (sched_setaffinity(0, sizeof set, &set) != 0)
            exit(2);
    }
    pthread_barrier_wait(&clock_run.all);
    getrusage(RUSAGE_THREAD, &before);
    clock_gettime(CLOCK_MONOTONIC, &own->began);
    clock_gettime(CLOCK_THREAD_CPUTIME_ID, &own->used_before);
    clock_work((uint32_t)(uintptr_t)number, rounds);
    clock_gettime(CLOCK_THREAD_CPUTIME_ID, &own->used_after);
    clock_gettime(CLOCK_MONOTONIC, &own->ended);
    getrusage(RUSAGE_THREAD, &after);
    own->voluntary = after.ru_nvcsw - before.ru_nvcsw;
    own->involuntary = after.ru_nivcsw - before.ru_nivcsw;
    return NULL;
}

static long long clock_nanoseconds(struct timespec time)
{
    return time.tv_sec * 1000000000LL + time.tv_nsec;
}

// Runs the threads, and prints what they took.
static int clock_main(int count, char **words, uint32_t usual, uint32_t (*result)(void))
{
    long long first = 0, last = 0, away = 0;
    long voluntary = 0, involuntary = 0;
    clock_run.rounds = count > 1 ? (uint32_t)strtoul(words[1], NULL, 10) : usual;
    pthread_barrier_init(&clock_run.all, NULL, THREADS);
    for (int i = 0; i < THREADS; i++) {
        clock_threads[i].cpu = count > i + 2 ? atoi(words[i + 2]) : -1;
        if (pthread_create(&clock_threads[i].thread, NULL, clock_run_thread,
                           (void *)(uintptr_t)i) != 0)
            return 1;
    }
    for (int i = 0; i < THREADS; i++) {
        struct clock_thread *it = &clock_threads[i];
        pthread_join(it->thread, NULL);
        if (i == 0 || clock_nanoseconds(it->began) < first)
            first = clock_nanoseconds(it->began);
        if (i == 0 || clock_nanoseconds(it->ended) > last)
            last = clock_nanoseconds(it->ended);
        away += clock_nanoseconds(it->ended) - clock_nanoseconds(it->began);
        away -= clock_nanoseconds(it->used_after) - clock_nanoseconds(it->used_before);
        voluntary += it->voluntary;
        involuntary += it->involuntary;
    }
    printf("result %u\nns %lld\nswitches %ld %ld away %lld\n", result(), last - first, voluntary,
           involuntary, away);
    return 0;
}

#define RUN(setup, work, result, usual)                                                            \
    static void clock_work(uint32_t number, uint32_t rounds) { work(number, rounds); }             \
    int main(int count, char **words)                                                              \
    {                                                                                              \
        setup();                                                                                   \
        return clock_main(count, words, ROUNDS_OR(usual), result);                                 \
    }

#endif
#endif
