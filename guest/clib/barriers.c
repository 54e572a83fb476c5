// Barriers in a program that destroys some. Who destroys one waits until each thread has left it, so that it may be set up anew at once, and its
// memory be used for something else. That takes one access more of each thread that leaves, so in any other program it is done by pthread.c.
#include <errno.h>
#include <pthread.h>
#include <stdatomic.h>
#include "../predator.h"

#define ALL 0xFFFFFFFFu

typedef _Atomic uint32_t word_t;

// What `come` counts in its upper half: those who have still to leave a round that is over. Each thread is in one round.
#define LEAVING (1u << 16)

int pthread_barrier_wait(pthread_barrier_t *barrier)
{
    word_t *come = (word_t *)&barrier->come, *rounds = (word_t *)&barrier->rounds;
    uint32_t round = atomic_load(rounds), threads = barrier->threads;
    if (atomic_fetch_add(come, 1) % LEAVING + 1 == threads) {
        // (the others begin to leave once the round is over)
        atomic_fetch_add(come, (threads - 1) * LEAVING - threads);
        atomic_store(rounds, round + 1);
        predator_wake(&barrier->rounds, ALL);
        return PTHREAD_BARRIER_SERIAL_THREAD;
    }
    while (atomic_load(rounds) == round)
        predator_wait(&barrier->rounds, round);
    if (atomic_fetch_sub(come, LEAVING) / LEAVING == 1)
        predator_wake(&barrier->come, ALL);
    return 0;
}

int pthread_barrier_destroy(pthread_barrier_t *barrier)
{
    uint32_t seen;
    while ((seen = atomic_load((word_t *)&barrier->come)) >= LEAVING && seen % LEAVING == 0)
        predator_wait(&barrier->come, seen);
    return seen == 0 ? 0 : EBUSY;
}
