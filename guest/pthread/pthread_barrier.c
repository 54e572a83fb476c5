// Barriers.
#include "pthread_internal.h"

int pthread_barrier_init(pthread_barrier_t *barrier, const pthread_barrierattr_t *attr, unsigned threads)
{
    (void)attr;
    if (threads == 0)
        return EINVAL;
    *barrier = (pthread_barrier_t){.threads = threads};
    return 0;
}

// The last to come opens the next round before it lets the others go. (A program that destroys a barrier has that of clib/barriers.c.)
__attribute__((weak)) int pthread_barrier_wait(pthread_barrier_t *barrier)
{
    uint32_t round = atomic_load(word_of(&barrier->rounds));
    if (atomic_fetch_add(word_of(&barrier->come), 1) + 1 == barrier->threads) {
        atomic_store(word_of(&barrier->come), 0);
        atomic_store(word_of(&barrier->rounds), round + 1);
        predator_wake(&barrier->rounds, ALL);
        return PTHREAD_BARRIER_SERIAL_THREAD;
    }
    while (atomic_load(word_of(&barrier->rounds)) == round)
        predator_wait(&barrier->rounds, round);
    return 0;
}
