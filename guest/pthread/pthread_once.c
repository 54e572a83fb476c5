// Initialisation that runs once.
#include "pthread_internal.h"

enum { BEGUN = 1, DONE };

int pthread_once(pthread_once_t *once, void (*run)(void))
{
    uint32_t seen = PTHREAD_ONCE_INIT;
    if (atomic_load(word_of(once)) == DONE)
        return 0;
    if (atomic_compare_exchange_strong(word_of(once), &seen, BEGUN)) {
        run();
        atomic_store(word_of(once), DONE);
        predator_wake(once, ALL);
    }
    while (atomic_load(word_of(once)) != DONE)
        predator_wait(once, BEGUN);
    return 0;
}
