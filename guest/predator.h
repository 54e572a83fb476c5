// The calls of a guest of predator, and what a program without a C library needs beside them. README.md has each answer.
//
// An answer below 0 is an error: EINVAL, EFAULT, EAGAIN or ENOMEM, negated. Where a call has several, the first that is named is
// answered. No call makes an access.
#ifndef PREDATOR_H
#define PREDATOR_H

#include <stddef.h>
#include <stdint.h>

#ifdef __cplusplus
extern "C" {
#endif

// (as in errno.h)
#define EAGAIN 11
#define EFAULT 14
#define EINVAL 22

// Puts a variable, which may be initialised, into cache lines that nothing else has, of any size up to 256 bytes, and keeps the
// lines before and behind free too. It stands first in the declaration. Of an array it is the whole that stands alone;
// `struct own { .. } __attribute__((aligned(64)))` gives each element a line of 64 bytes.
#define ALONE PREDATOR_ALONE(__COUNTER__)
#define PREDATOR_ALONE(number) PREDATOR_ALONE_IN(number)
// (256 bytes behind the variable, in a section of its own)
#define PREDATOR_ALONE_IN(number)                                                                                                          \
    __asm__(".pushsection .alone." #number ",\"aw\",@progbits\n.subsection 1\n.zero 256\n.popsection");                                     \
    __attribute__((section(".alone." #number), aligned(256)))

// Puts out bytes to file 1 or 2, of which the first 4096 count: how many those are. -EINVAL for another file, -EFAULT where one of
// them isn't in memory. No bytes may lie anywhere.
int predator_write(int file, const void *bytes, size_t count);

// Ends this hart. A hart that joins it gets the code; else it is kept until one does. Once every hart is free or has ended the run
// ends, with the code of hart 0.
_Noreturn void predator_exit(int code);

// Ends the run with this code, whatever the other harts do.
_Noreturn void predator_exit_group(int code);

// A block of so many bytes at the least address that has room for it, a multiple of 16. Null where the heap has no room, and after
// 2^20 blocks, those that were freed among them. Its bytes are not cleared. A block takes its size rounded up to 16, at least 16.
void *predator_alloc(size_t size);

// Gives a block back: 0, or -EINVAL where no block begins at the address, or it was given back before.
int predator_free(void *block);

// Starts the lowest hart that is free, which runs the function and ends with its result: the hart's number, or -EAGAIN where each
// is in use. One that has ended and isn't joined is in use.
int predator_spawn(int (*run)(void *), void *argument);

// Waits for a hart to end, and frees it: its code, which may look like an error. -EINVAL where there is no such hart, it is hart 0
// or this one, it is free (never started, or joined before), or another hart is joining it.
int predator_join(int hart);

// Waits to be woken at the word, if it has the value: 0 once woken. -EINVAL where the word is misaligned, -EFAULT where it isn't
// in memory, -EAGAIN where it has another value.
int predator_wait(const volatile uint32_t *word, uint32_t value);

// Wakes those that wait at the word, the lowest harts first, at most so many: how many it woke. -EINVAL where the word is
// misaligned; it need not be in memory.
int predator_wake(const volatile uint32_t *word, uint32_t most);

// The number of this hart. The first hart is 0.
int predator_hart_id(void);

// Text to file 1, and a number in decimal.
void print(const char *text);
void print_number(uint32_t number);

// ---- For an allocator of the program's own, which takes memory in large pieces and hands out parts of them.

// (as in errno.h)
#define ENOMEM 12

// Notes a block that is handed out, for the report: 0. One that lived at this address dies. It takes no room of the heap, and
// predator_free knows nothing of it. -EINVAL where it has no bytes or they aren't all in memory, -ENOMEM after 2^20 of these.
static inline int predator_block(const void *block, size_t size)
{
    register uintptr_t a0 __asm__("a0") = (uintptr_t)block;
    register uintptr_t a1 __asm__("a1") = size;
    register int a7 __asm__("a7") = 1031;
    __asm__ volatile("ecall" : "+r"(a0) : "r"(a1), "r"(a7) : "memory");
    return (int)a0;
}

// Notes that such a block is given back: 0, or -EINVAL where none lives at the address.
static inline int predator_unblock(const void *block)
{
    register uintptr_t a0 __asm__("a0") = (uintptr_t)block;
    register int a7 __asm__("a7") = 1032;
    __asm__ volatile("ecall" : "+r"(a0) : "r"(a7) : "memory");
    return (int)a0;
}

// ---- How many steps all harts have made before this one.
static inline uint64_t predator_steps(void)
{
    register uint32_t low __asm__("a0");
    register uint32_t high __asm__("a1");
    register int a7 __asm__("a7") = 1033;
    __asm__ volatile("ecall" : "=r"(low), "=r"(high) : "r"(a7) : "memory");
    return (uint64_t)high << 32 | low;
}

#ifdef __cplusplus
}
#endif

#endif
