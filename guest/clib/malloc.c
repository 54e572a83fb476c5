// malloc and free over the heap of the run. A block is one of the run's blocks, of just the size that was asked, and neither of the two
// makes an access of its own. In a program that has realloc each block has 16 bytes in front, with its size, of which the report says nothing.
#include "heap.h"
#include <stdlib.h>

void *malloc(size_t size)
{
    if (&predator_keeps_sizes != NULL)
        return fronted(16, size);
    return heap_alloc(size);
}

static _Noreturn void refuse(void)
{
    static const char text[] = "free: no block begins there\n";
    predator_write(2, text, sizeof text - 1);
    abort();
}

void free(void *address)
{
    if (address == NULL)
        return;
    if (&predator_keeps_sizes == NULL && heap_free(address) == 0)
        return;
    struct front *front = (struct front *)address - 1;
    if (front->mark != mark_of(address, front))
        refuse();
    front->mark = 0;
    note_end(address);
    if (heap_free(front->block) != 0)
        refuse();
}

// Named by realloc, which is of use to this malloc alone.
const char predator_malloc = 0;
