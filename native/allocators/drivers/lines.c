/* Blocks of about a line: each thread asks by calloc and aligned_alloc for sizes around 64 and 128
   bytes. An allocator that rounds a block's begin up to a line, and not its end, has the next
   thread's block begin on the same line. The drivers' SIZE has no meaning here. */
#include "driver.h"

#define ROUNDS 6
#define HELD   10

static const struct {
    size_t align, size;
} wanted[HELD] = {
    {0, 60},  {0, 64},  {0, 68},  {64, 64},   {64, 128},
    {64, 64}, {0, 124}, {0, 132}, {128, 128}, {16, 48},
};

static void write_ends(char *block, size_t size)
{
    for (int it = 0; it < 8; it++) {
        *(volatile char *)block += 1;
        *(volatile char *)(block + size - 1) += 1;
    }
}

static void work(unsigned thread)
{
    char *held[HELD];
    (void)thread;
    for (int round = 0; round < ROUNDS; round++) {
        for (int it = 0; it < HELD; it++) {
            size_t align = wanted[it].align, size = wanted[it].size;
            void *block = align == 0 ? calloc(1, size) : aligned_alloc(align, size);
            held[it] = (char *)used(block);
            if (align != 0 && (uintptr_t)block % align != 0) {
                fputs("aligned_alloc gave a block that isn't aligned\n", stderr);
                exit(WRONG_USE);
            }
        }
        for (int turn = 0; turn < 4; turn++)
            for (int it = 0; it < HELD; it++)
                write_ends(held[it], wanted[it].size);
        for (int it = 0; it < HELD; it++)
            give(held[it]);
    }
}

int main(int count, char **words) { return run_driver(count, words, NULL, work); }
