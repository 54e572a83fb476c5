/* What the compiler calls for each access of the program, and where a function begins and ends. */
#include "runtime.h"

/* The compiler has this called before there is an environment: `begin` in runtime.c is the
 * beginning. */
SHOWN void __tsan_init(void);
SHOWN void __tsan_init(void) {}

SHOWN void __tsan_func_entry(void *pc);
SHOWN void __tsan_func_entry(void *pc)
{
    steps++;
    calls[depth++ % DEPTH] = (Addr)pc;
}
SHOWN void __tsan_func_exit(void);
SHOWN void __tsan_func_exit(void) { depth--; }

#define ACCESS(name, size, writes)                                                                 \
    SHOWN void __tsan_##name(void *addr);                                                          \
    SHOWN void __tsan_##name(void *addr) { touch(addr, size, writes, CALLER); }                    \
    SHOWN void __tsan_##name##_pc(void *addr, void *pc);                                           \
    SHOWN void __tsan_##name##_pc(void *addr, void *pc) { touch(addr, size, writes, (Addr)pc); }
#define SIZES(prefix, writes)                                                                      \
    ACCESS(prefix##1, 1, writes)                                                                   \
    ACCESS(prefix##2, 2, writes)                                                                   \
    ACCESS(prefix##4, 4, writes) ACCESS(prefix##8, 8, writes) ACCESS(prefix##16, 16, writes)
SIZES(read, 0)
SIZES(write, 1)
SIZES(volatile_read, 0)
SIZES(volatile_write, 1)
SIZES(unaligned_read, 0)
SIZES(unaligned_write, 1)
SIZES(unaligned_volatile_read, 0)
SIZES(unaligned_volatile_write, 1)
static inline void both(void *addr, unsigned size, Addr caller)
{
    ready();
    note(addr, size, 0, caller);
    note(addr, size, 1, caller);
}
#define BOTH(size)                                                                                 \
    SHOWN void __tsan_read_write##size(void *addr);                                                \
    SHOWN void __tsan_read_write##size(void *addr) { both(addr, size, CALLER); }                   \
    SHOWN void __tsan_unaligned_read_write##size(void *addr);                                      \
    SHOWN void __tsan_unaligned_read_write##size(void *addr) { both(addr, size, CALLER); }
BOTH(1)
BOTH(2)
BOTH(4)
BOTH(8)
BOTH(16)

static void range(const volatile void *addr, unsigned long size, int writes, Addr caller)
{
    ready();
    while (size > 0) {
        unsigned piece = size < 64 ? size : 64;
        note(addr, piece, writes, caller);
        addr = (const volatile char *)addr + piece;
        size -= piece;
    }
}

SHOWN void __tsan_read_range(void *addr, unsigned long size);
SHOWN void __tsan_read_range(void *addr, unsigned long size) { range(addr, size, 0, CALLER); }
SHOWN void __tsan_write_range(void *addr, unsigned long size);
SHOWN void __tsan_write_range(void *addr, unsigned long size) { range(addr, size, 1, CALLER); }
SHOWN void __tsan_vptr_update(void **addr, void *value);
SHOWN void __tsan_vptr_update(void **addr, void *value) { touch(addr, 8, 1, CALLER); }
SHOWN void __tsan_vptr_read(void **addr);
SHOWN void __tsan_vptr_read(void **addr) { touch(addr, 8, 0, CALLER); }

typedef __int128 Wide;
#define ATOMIC(bits, type)                                                                         \
    SHOWN type __tsan_atomic##bits##_load(const volatile type *at, int order);                     \
    SHOWN type __tsan_atomic##bits##_load(const volatile type *at, int order)                      \
    {                                                                                              \
        touch(at, bits / 8, 0, CALLER);                                                            \
        return *at;                                                                                \
    }                                                                                              \
    SHOWN void __tsan_atomic##bits##_store(volatile type *at, type value, int order);              \
    SHOWN void __tsan_atomic##bits##_store(volatile type *at, type value, int order)               \
    {                                                                                              \
        touch(at, bits / 8, 1, CALLER);                                                            \
        *at = value;                                                                               \
        __sync_synchronize();                                                                      \
    }                                                                                              \
    UPDATE(bits, type, exchange, value)                                                            \
    UPDATE(bits, type, fetch_add, was + value)                                                     \
    UPDATE(bits, type, fetch_sub, was - value)                                                     \
    UPDATE(bits, type, fetch_and, was &value)                                                      \
    UPDATE(bits, type, fetch_or, was | value)                                                      \
    UPDATE(bits, type, fetch_xor, was ^ value)                                                     \
    UPDATE(bits, type, fetch_nand, ~(was & value))                                                 \
    static inline type swapped##bits(volatile type *at, type wanted, type value, Addr caller)      \
    {                                                                                              \
        ready();                                                                                   \
        type was = *at;                                                                            \
        note(at, bits / 8, was == wanted, caller);                                                 \
        if (was == wanted)                                                                         \
            *at = value;                                                                           \
        __sync_synchronize();                                                                      \
        return was;                                                                                \
    }                                                                                              \
    SHOWN type __tsan_atomic##bits##_compare_exchange_val(volatile type *at, type wanted,          \
                                                          type value, int good, int bad);          \
    SHOWN type __tsan_atomic##bits##_compare_exchange_val(volatile type *at, type wanted,          \
                                                          type value, int good, int bad)           \
    {                                                                                              \
        return swapped##bits(at, wanted, value, CALLER);                                           \
    }                                                                                              \
    SWAP(bits, type, strong)                                                                       \
    SWAP(bits, type, weak)
/* Threads run one at a time, so that what is atomic needs no more than that no turn ends in it. */
#define UPDATE(bits, type, name, result)                                                           \
    SHOWN type __tsan_atomic##bits##_##name(volatile type *at, type value, int order);             \
    SHOWN type __tsan_atomic##bits##_##name(volatile type *at, type value, int order)              \
    {                                                                                              \
        touch(at, bits / 8, 1, CALLER);                                                            \
        type was = *at;                                                                            \
        *at = result;                                                                              \
        __sync_synchronize();                                                                      \
        return was;                                                                                \
    }
#define SWAP(bits, type, name)                                                                     \
    SHOWN int __tsan_atomic##bits##_compare_exchange_##name(volatile type *at, type *wanted,       \
                                                            type value, int good, int bad);        \
    SHOWN int __tsan_atomic##bits##_compare_exchange_##name(volatile type *at, type *wanted,       \
                                                            type value, int good, int bad)         \
    {                                                                                              \
        type was = swapped##bits(at, *wanted, value, CALLER);                                      \
        int same = was == *wanted;                                                                 \
        *wanted = was;                                                                             \
        return same;                                                                               \
    }
ATOMIC(8, unsigned char)
ATOMIC(16, unsigned short)
ATOMIC(32, unsigned)
ATOMIC(64, unsigned long)
ATOMIC(128, Wide)
SHOWN void __tsan_atomic_thread_fence(int order);
SHOWN void __tsan_atomic_thread_fence(int order) { __sync_synchronize(); }
SHOWN void __tsan_atomic_signal_fence(int order);
SHOWN void __tsan_atomic_signal_fence(int order) {}
