// A block of 8 bytes low in the heap is freed, blocks that don't fit there are made behind it, and at last one that does. It prints where
// each is.
#include "predator.h"

static void *made(size_t size)
{
    void *block = predator_alloc(size);
    print_number((uintptr_t)block);
    print("\n");
    return block;
}

int main(void)
{
    void *low = made(8);
    made(169);
    predator_free(low);
    for (int i = 1; i < 4000; i++)
        made(169);
    made(8);
    return 0;
}
