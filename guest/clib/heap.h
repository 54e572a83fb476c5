// The heap of the run, asked from within malloc itself, so that the first call site of a block is that of who called malloc.
#ifndef PREDATOR_HEAP_H
#define PREDATOR_HEAP_H

#include <errno.h>
#include <stddef.h>
#include <stdint.h>

#include "../predator.h"

static inline int predator_call(int number, uintptr_t argument)
{
    register uintptr_t a0 __asm__("a0") = argument;
    register int a7 __asm__("a7") = number;
    __asm__ volatile("ecall" : "+r"(a0) : "r"(a7) : "memory");
    return (int)a0;
}

static inline void *heap_alloc(size_t size)
{
    void *block = (void *)predator_call(1024, size);
    if (block == NULL)
        errno = ENOMEM;
    return block;
}

static inline int heap_free(void *block)
{
    return predator_call(1025, (uintptr_t)block);
}

// What stands before an address that malloc gave and that isn't its block's: the block, the size that was asked, and a mark of both.
struct front {
    void *block;
    size_t size;
    uint32_t mark, unused;
};

// Of a block of the heap the report has the part that a program is given, and not what stands before and behind it: a block that is noted at
// the address of a living one ends its life, and then ends itself. (The studies' programs are as they were without it.)
static inline __attribute__((always_inline)) void note_part(const void *block, const void *part, size_t size)
{
#ifdef PREDATOR_EXTRAS
    if (predator_block(block, 1) == 0)
        predator_unblock(block);
    predator_block(part, size);
#endif
    (void)block, (void)part, (void)size;
}

static inline __attribute__((always_inline)) void note_end(const void *part)
{
#ifdef PREDATOR_EXTRAS
    predator_unblock(part);
#endif
    (void)part;
}

static inline uint32_t mark_of(const void *address, const struct front *front)
{
    return (uint32_t)(uintptr_t)address ^ (uint32_t)(uintptr_t)front->block ^ 0x5EEDB10Cu;
}

// A block with a front, where one may be needed: at an address that is a multiple of `align`, 16 or more.
static inline __attribute__((always_inline)) void *fronted(size_t align, size_t size)
{
    if (size > SIZE_MAX - align - sizeof(struct front)) {
        errno = ENOMEM;
        return NULL;
    }
    char *block = heap_alloc(align - 16 + sizeof(struct front) + size);
    if (block == NULL)
        return NULL;
    char *address = (char *)(((uintptr_t)block + sizeof(struct front) + align - 1) & ~(uintptr_t)(align - 1));
    note_part(block, address, size);
    struct front *front = (struct front *)address - 1;
    front->block = block;
    front->size = size;
    front->mark = mark_of(address, front);
    return address;
}

// In a program that has realloc: sizes are kept, so each block has a front. Null in any other.
extern const char predator_keeps_sizes __attribute__((weak));

#endif
