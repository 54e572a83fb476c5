// The names of the C library for an allocator whose functions begin otherwise: ALLOCATOR is `dl` or `mi_`.
#include <stddef.h>

#define JOINED(first, second) first##second
#define JOIN(first, second)   JOINED(first, second)
#define OWN(name)             JOIN(ALLOCATOR, name)

void *OWN(malloc)(size_t size);
void OWN(free)(void *block);
void *OWN(calloc)(size_t count, size_t each);
void *OWN(realloc)(void *block, size_t size);
void *OWN(memalign)(size_t align, size_t size);

void *malloc(size_t size)
{
    return OWN(malloc)(size);
}

void free(void *block)
{
    OWN(free)(block);
}

void *calloc(size_t count, size_t each)
{
    return OWN(calloc)(count, each);
}

void *realloc(void *block, size_t size)
{
    return OWN(realloc)(block, size);
}

void *aligned_alloc(size_t align, size_t size)
{
    return OWN(memalign)(align, size);
}
