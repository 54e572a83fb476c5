// What the parts of pthread.c share: the word that waits and locks are made of, and the states of all harts. A thread is a hart; what waits,
// waits by `wait` at a word of 32 bits.
#ifndef PREDATOR_PTHREAD_INTERNAL_H
#define PREDATOR_PTHREAD_INTERNAL_H

#include <errno.h>
#include <pthread.h>
#include <semaphore.h>
#include <stdatomic.h>
#include <unistd.h>
#include "../predator.h"

#define HARTS 256
#define ALL 0xFFFFFFFFu

typedef _Atomic uint32_t word_t;

// ---- locks of three states: free, held, and held while others may wait

enum { FREE, HELD, AWAITED };

static word_t *word_of(uint32_t *word)
{
    return (word_t *)word;
}

static int try_lock(uint32_t *word)
{
    uint32_t seen = FREE;
    return atomic_compare_exchange_strong(word_of(word), &seen, HELD);
}

static void lock(uint32_t *word)
{
    if (!try_lock(word))
        while (atomic_exchange(word_of(word), AWAITED) != FREE)
            predator_wait(word, AWAITED);
}

static void unlock(uint32_t *word)
{
    if (atomic_exchange(word_of(word), FREE) == AWAITED)
        predator_wake(word, 1);
}

// ---- harts

enum state { NONE, RUNS, ENDED, JOINED, DETACHED, GONE };

// What is known of the harts, under one lock: their states, and how many threads haven't ended. One that was joined stays JOINED until
// it is used again. The number of harts is 0 before they were counted.
ALONE static struct {
    uint32_t lock, threads, main_ended, harts;
    void *main_result;
    unsigned char states[HARTS];
#ifdef PREDATOR_EXTRAS
    unsigned char has_warned;
#endif
} pthread_harts = {.threads = 1, .states = {RUNS}};

// ---- what one part has for others

static void free_detached(void);
static int holds(const pthread_mutex_t *mutex);
static void run_destructors(void);

#endif
