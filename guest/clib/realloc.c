// realloc, whose presence makes malloc keep sizes.
#include "heap.h"
#include <stdlib.h>
#include <string.h>

extern const char predator_malloc;

const char predator_keeps_sizes = 0;
// A malloc of the program's own, without a realloc, isn't linked beside this one.
const char *const predator_realloc_wants __attribute__((used)) = &predator_malloc;

size_t malloc_usable_size(void *address)
{
    return address == NULL ? 0 : ((struct front *)address - 1)->size;
}

void *realloc(void *address, size_t size)
{
    if (address == NULL)
        return malloc(size);
    size_t old = malloc_usable_size(address);
    if (size == 0) {
        free(address);
        return NULL;
    }
    void *block = malloc(size);
    if (block == NULL)
        return NULL;
    memcpy(block, address, old < size ? old : size);
    free(address);
    return block;
}
