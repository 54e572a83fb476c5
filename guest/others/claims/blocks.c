// An allocator's blocks, small and large: each is filled, grown and given back, and none lies in another one.
#include <stdint.h>
#include <stdio.h>
#include <stdlib.h>
#include <string.h>

#ifndef MALLOC
#define MALLOC malloc
#define REALLOC realloc
#define FREE free
#endif

#define BLOCKS 24

void *MALLOC(size_t size);
void *REALLOC(void *block, size_t size);
void FREE(void *block);

static size_t size_of(int i)
{
    return i % 6 == 5 ? 200000u + 1000u * (unsigned)i : 8u + 40u * (unsigned)i;
}

int main(void)
{
    unsigned char *blocks[BLOCKS];
    for (int round = 0; round < 2; round++) {
        for (int i = 0; i < BLOCKS; i++) {
            if ((blocks[i] = MALLOC(size_of(i))) == NULL)
                return 1;
            memset(blocks[i], i + 1, size_of(i) < 1000 ? size_of(i) : 1000);
        }
        for (int i = 0; i < BLOCKS; i += 2)
            if ((blocks[i] = REALLOC(blocks[i], 2 * size_of(i))) == NULL)
                return 2;
        for (int i = 0; i < BLOCKS; i++) {
            for (size_t at = 0; at < size_of(i) && at < 1000; at++)
                if (blocks[i][at] != i + 1)
                    return 3;
            FREE(blocks[i]);
        }
    }
    puts("whole");
    return 0;
}
