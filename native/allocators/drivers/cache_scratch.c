/* Berger's cache-scratch (Hoard, ASPLOS 2000): the first thread asks for a block for each thread
   and hands it over. Each thread frees that block, and then does as in cache-thrash. An allocator
   that gives a thread the place that it has freed leaves it on a line with those of the other
   threads: passive false sharing. */
#include "driver.h"

#define ROUNDS 20
#define WRITES 40

/* Each thread's block on a line of its own. */
static struct {
    _Alignas(256) char *block;
} handed[MOST_THREADS];

static void prepare(void)
{
    for (unsigned it = 0; it < run.threads; it++)
        handed[it].block = take(run.size);
}

static void work(unsigned thread)
{
    give(handed[thread].block);
    for (int round = 0; round < ROUNDS; round++) {
        char *block = take(run.size);
        write_words(block, run.size, WRITES);
        give(block);
    }
}

int main(int count, char **words) { return run_driver(count, words, prepare, work); }
