/* Berger's cache-thrash (Hoard, ASPLOS 2000): each thread asks for a block, writes to it many
   times, frees it and begins anew. An allocator that gives blocks of one line to several threads
   has them contend: active false sharing. */
#include "driver.h"

#define ROUNDS 20
#define WRITES 40

static void work(unsigned thread)
{
    (void)thread;
    for (int round = 0; round < ROUNDS; round++) {
        char *block = take(run.size);
        write_words(block, run.size, WRITES);
        give(block);
    }
}

int main(int count, char **words) { return run_driver(count, words, NULL, work); }
