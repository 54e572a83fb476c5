// Spin locks.
#include "pthread_internal.h"

int pthread_spin_init(pthread_spinlock_t *spin, int shared)
{
    (void)shared;
    *spin = FREE;
    return 0;
}

int pthread_spin_destroy(pthread_spinlock_t *spin)
{
    (void)spin;
    return 0;
}

int pthread_spin_lock(pthread_spinlock_t *spin)
{
    while (atomic_exchange(word_of(spin), HELD) != FREE)
        while (atomic_load_explicit(word_of(spin), memory_order_relaxed) != FREE)
            ;
    return 0;
}

int pthread_spin_trylock(pthread_spinlock_t *spin)
{
    return atomic_exchange(word_of(spin), HELD) == FREE ? 0 : EBUSY;
}

int pthread_spin_unlock(pthread_spinlock_t *spin)
{
    atomic_store(word_of(spin), FREE);
    return 0;
}
