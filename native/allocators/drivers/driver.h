/* What the drivers share. A driver is called as `driver THREADS SIZE` and repeats one published
   pattern of allocations. Its threads start before the recording does, so what their start costs
   isn't in the trace, and they end behind it.

   A thread writes to a block as soon as it has it, and reads it just before it frees it. So the
   trace says which thread was given each block, by the first access, and which one freed it. */
#ifndef DRIVER_H
#define DRIVER_H

#include <pthread.h>
#include <stdint.h>
#include <stdio.h>
#include <stdlib.h>
#include <string.h>

#ifdef __riscv
/* A guest's whole run is recorded. */
#define PREDATOR_START (void)0
#define PREDATOR_STOP  (void)0
#else
#include "../../tool/requests.h"
#endif

#define MOST_THREADS 64
#define MOST_SIZE    4096
/* What a driver ends with where the allocator fails it. */
#define NO_MEMORY 3
#define WRONG_USE 4

/* What all threads read is on lines that nobody writes. */
static struct {
    _Alignas(256) unsigned threads;
    unsigned size;
    void (*work)(unsigned);
    _Alignas(256) pthread_barrier_t all;     /* the threads and the first one */
    _Alignas(256) pthread_barrier_t workers; /* the threads */
} run;

static inline volatile char *used(void *block)
{
    if (block == NULL) {
        fputs("the allocator gave no memory\n", stderr);
        exit(NO_MEMORY);
    }
    *(volatile char *)block = 1;
    return (volatile char *)block;
}

static inline char *take(size_t size) { return (char *)used(malloc(size)); }

static inline void give(void *block)
{
    (void)*(volatile char *)block;
    free(block);
}

/* Writes to each word of a block, so many times. */
static inline void write_words(void *block, size_t size, int times)
{
    for (int turn = 0; turn < times; turn++)
        for (size_t at = 0; at + 4 <= size || at == 0; at += 4)
            *((volatile char *)block + at) += 1;
}

/* The next of a thread's own drawn numbers. */
static inline uint32_t draw(uint32_t *state)
{
    *state = *state * 1664525 + 1013904223;
    return *state >> 8;
}

static inline void await_all(void) { pthread_barrier_wait(&run.all); }

static inline void await_workers(void) { pthread_barrier_wait(&run.workers); }

static void *begin_thread(void *number)
{
    await_all();
    run.work((unsigned)(uintptr_t)number);
    await_all();
    return NULL;
}

static inline unsigned parse_word(const char *word, unsigned least, unsigned most)
{
    char *end;
    unsigned long value = strtoul(word, &end, 10);
    if (*end != 0 || value < least || value > most) {
        fputs("usage: driver THREADS SIZE\n", stderr);
        exit(WRONG_USE);
    }
    return (unsigned)value;
}

/* Has the first thread prepare, then all threads work, each with its number from 0 on. */
static inline int run_driver(int count, char **words, void (*prepare)(void), void (*work)(unsigned))
{
    static pthread_t threads[MOST_THREADS];
    run.threads = count > 1 ? parse_word(words[1], 2, MOST_THREADS) : 4;
    run.size = count > 2 ? parse_word(words[2], 1, MOST_SIZE) : 8;
    run.work = work;
    /* As in other programs, the first thread has asked for a block before there is a second one. */
    give(take(1));
    pthread_barrier_init(&run.all, NULL, run.threads + 1);
    pthread_barrier_init(&run.workers, NULL, run.threads);
    for (unsigned it = 0; it < run.threads; it++)
        if (pthread_create(&threads[it], NULL, begin_thread, (void *)(uintptr_t)it) != 0) {
            fputs("a thread could not start\n", stderr);
            exit(WRONG_USE);
        }
    PREDATOR_START;
    if (prepare != NULL)
        prepare();
    await_all();
    await_all();
    PREDATOR_STOP;
    for (unsigned it = 0; it < run.threads; it++)
        pthread_join(threads[it], NULL);
    return 0;
}

#endif
