// Stands before an author's allocator in a guest of `predator allocators`: each block that is handed out, and that is given back, is
// noted in the trace. The linker sends all calls of malloc and its like here (`--wrap=malloc`), but those within the allocator's own file.
//
// Such a block is known by the function that noted it: its first call site is in one whose name begins with `__wrap_`. HAS_CALLOC
// and others name what the allocator defines; without them the kit's own functions are called, which call malloc.
#include <stdlib.h>
#include "../predator.h"

static __attribute__((noinline)) void note(const void *block, size_t size)
{
    predator_block(block, size);
}

void *__real_malloc(size_t size);
void *__wrap_malloc(size_t size)
{
    void *block = __real_malloc(size);
    if (block != NULL && size > 0)
        note(block, size);
    return block;
}

void __real_free(void *block);
void __wrap_free(void *block)
{
    if (block != NULL)
        predator_unblock(block);
    __real_free(block);
}

#ifdef HAS_CALLOC
void *__real_calloc(size_t count, size_t each);
void *__wrap_calloc(size_t count, size_t each)
{
    void *block = __real_calloc(count, each);
    if (block != NULL && count * each > 0)
        note(block, count * each);
    return block;
}
#endif

#ifdef HAS_REALLOC
void *__real_realloc(void *old, size_t size);
void *__wrap_realloc(void *old, size_t size)
{
    if (old != NULL)
        predator_unblock(old);
    void *block = __real_realloc(old, size);
    if (block != NULL && size > 0)
        note(block, size);
    return block;
}
#endif

#ifdef HAS_ALIGNED_ALLOC
void *__real_aligned_alloc(size_t align, size_t size);
void *__wrap_aligned_alloc(size_t align, size_t size)
{
    void *block = __real_aligned_alloc(align, size);
    if (block != NULL && size > 0)
        note(block, size);
    return block;
}
#else
// The kit's own is for the kit's malloc alone.
void *aligned_alloc(size_t align, size_t size)
{
    (void)align, (void)size;
    return NULL;
}
#endif
