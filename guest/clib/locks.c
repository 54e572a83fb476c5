// The C library's own locks, each of which its holder may take again.
#include <stdatomic.h>
#include <stdint.h>
#include <stdlib.h>
#include <sys/lock.h>
#include "../predator.h"

// The word is 0 where the lock is free, 1 where it is held, and 2 where it is held and others may wait.
struct __lock {
    _Atomic uint32_t word, holder;
    uint32_t times;
};

struct __lock __lock___libc_recursive_mutex;

void __retarget_lock_init(_LOCK_T *lock)
{
    *lock = calloc(1, sizeof **lock);
}

void __retarget_lock_close(_LOCK_T lock)
{
    free(lock);
}

int __retarget_lock_try_acquire(_LOCK_T lock)
{
    uint32_t self = (uint32_t)predator_hart_id() + 1, seen = 0;
    if (lock->holder != self && !atomic_compare_exchange_strong(&lock->word, &seen, 1))
        return 0;
    lock->holder = self;
    lock->times++;
    return 1;
}

void __retarget_lock_acquire(_LOCK_T lock)
{
    if (__retarget_lock_try_acquire(lock))
        return;
    while (atomic_exchange(&lock->word, 2) != 0)
        predator_wait((const volatile uint32_t *)&lock->word, 2);
    lock->holder = (uint32_t)predator_hart_id() + 1;
    lock->times = 1;
}

void __retarget_lock_release(_LOCK_T lock)
{
    if (--lock->times > 0)
        return;
    lock->holder = 0;
    if (atomic_exchange(&lock->word, 0) == 2)
        predator_wake((const volatile uint32_t *)&lock->word, 1);
}

void __retarget_lock_init_recursive(_LOCK_T *lock)
{
    __retarget_lock_init(lock);
}

void __retarget_lock_close_recursive(_LOCK_T lock)
{
    __retarget_lock_close(lock);
}

int __retarget_lock_try_acquire_recursive(_LOCK_T lock)
{
    return __retarget_lock_try_acquire(lock);
}

void __retarget_lock_acquire_recursive(_LOCK_T lock)
{
    __retarget_lock_acquire(lock);
}

void __retarget_lock_release_recursive(_LOCK_T lock)
{
    __retarget_lock_release(lock);
}
