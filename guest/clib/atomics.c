// The atomic operations that rv32ima has no instruction for, those of 8 bytes and of other sizes, under a lock of the address; and the
// exchanges that picolibc's input asks for, which its set without atomic instructions has without them.
#include <stdatomic.h>
#include <stddef.h>
#include <stdint.h>
#include <string.h>
#include "../predator.h"

ALONE static _Atomic uint32_t atomic_locks[64];

static _Atomic uint32_t *acquire(const volatile void *address)
{
    _Atomic uint32_t *lock = &atomic_locks[(uintptr_t)address >> 3 & 63];
    uint32_t seen = 0;
    if (!atomic_compare_exchange_strong(lock, &seen, 1))
        while (atomic_exchange(lock, 2) != 0)
            predator_wait((const volatile uint32_t *)lock, 2);
    return lock;
}

static void release(_Atomic uint32_t *lock)
{
    if (atomic_exchange(lock, 0) == 2)
        predator_wake((const volatile uint32_t *)lock, 1);
}

// ---- of 8 bytes; the compiler knows the names, so they are given to other ones

#define NAMED(name) __asm__(name)

uint64_t load_8(const volatile void *at, int order) NAMED("__atomic_load_8");
void store_8(volatile void *at, uint64_t value, int order) NAMED("__atomic_store_8");
uint64_t exchange_8(volatile void *at, uint64_t value, int order) NAMED("__atomic_exchange_8");
_Bool compare_exchange_8(volatile void *at, void *seen, uint64_t value, int order, int fails) NAMED("__atomic_compare_exchange_8");

uint64_t load_8(const volatile void *at, int order)
{
    (void)order;
    _Atomic uint32_t *lock = acquire(at);
    uint64_t value = *(const volatile uint64_t *)at;
    release(lock);
    return value;
}

void store_8(volatile void *at, uint64_t value, int order)
{
    (void)order;
    _Atomic uint32_t *lock = acquire(at);
    *(volatile uint64_t *)at = value;
    release(lock);
}

_Bool compare_exchange_8(volatile void *at, void *seen, uint64_t value, int order, int fails)
{
    (void)order, (void)fails;
    _Atomic uint32_t *lock = acquire(at);
    volatile uint64_t *now = at;
    uint64_t old = *now;
    _Bool same = old == *(uint64_t *)seen;
    if (same)
        *now = value;
    else
        *(uint64_t *)seen = old;
    release(lock);
    return same;
}

#define CHANGES(function, name, result)                                                                                                    \
    uint64_t function(volatile void *at, uint64_t value, int order) NAMED(name);                                                           \
    uint64_t function(volatile void *at, uint64_t value, int order)                                                                        \
    {                                                                                                                                      \
        (void)order;                                                                                                                       \
        _Atomic uint32_t *lock = acquire(at);                                                                                              \
        volatile uint64_t *now = at;                                                                                                       \
        uint64_t old = *now;                                                                                                               \
        *now = result;                                                                                                                     \
        release(lock);                                                                                                                     \
        return old;                                                                                                                        \
    }

CHANGES(exchange_8, "__atomic_exchange_8", value)
CHANGES(fetch_add_8, "__atomic_fetch_add_8", old + value)
CHANGES(fetch_sub_8, "__atomic_fetch_sub_8", old - value)
CHANGES(fetch_and_8, "__atomic_fetch_and_8", old & value)
CHANGES(fetch_or_8, "__atomic_fetch_or_8", old | value)
CHANGES(fetch_xor_8, "__atomic_fetch_xor_8", old ^ value)
CHANGES(fetch_nand_8, "__atomic_fetch_nand_8", ~(old & value))

// ---- of any size

void load_any(size_t size, const void *at, void *to, int order) NAMED("__atomic_load");
void store_any(size_t size, void *at, const void *from, int order) NAMED("__atomic_store");
void exchange_any(size_t size, void *at, const void *from, void *to, int order) NAMED("__atomic_exchange");
_Bool compare_exchange_any(size_t size, void *at, void *seen, const void *from, int order, int fails) NAMED("__atomic_compare_exchange");
_Bool is_lock_free(size_t size, const void *at) NAMED("__atomic_is_lock_free");

void load_any(size_t size, const void *at, void *to, int order)
{
    (void)order;
    _Atomic uint32_t *lock = acquire(at);
    memcpy(to, at, size);
    release(lock);
}

void store_any(size_t size, void *at, const void *from, int order)
{
    (void)order;
    _Atomic uint32_t *lock = acquire(at);
    memcpy(at, from, size);
    release(lock);
}

void exchange_any(size_t size, void *at, const void *from, void *to, int order)
{
    (void)order;
    _Atomic uint32_t *lock = acquire(at);
    memcpy(to, at, size);
    memcpy(at, from, size);
    release(lock);
}

_Bool compare_exchange_any(size_t size, void *at, void *seen, const void *from, int order, int fails)
{
    (void)order, (void)fails;
    _Atomic uint32_t *lock = acquire(at);
    _Bool same = memcmp(at, seen, size) == 0;
    if (same)
        memcpy(at, from, size);
    else
        memcpy(seen, at, size);
    release(lock);
    return same;
}

_Bool is_lock_free(size_t size, const void *at)
{
    return (size == 1 || size == 2 || size == 4) && (uintptr_t)at % size == 0;
}

// ---- picolibc's input

uint32_t __atomic_exchange_ungetc(uint32_t *at, uint32_t value)
{
    return __atomic_exchange_n(at, value, __ATOMIC_RELAXED);
}

_Bool __atomic_compare_exchange_ungetc(uint32_t *at, uint32_t seen, uint32_t value)
{
    return __atomic_compare_exchange_n(at, &seen, value, 0, __ATOMIC_RELAXED, __ATOMIC_RELAXED);
}
