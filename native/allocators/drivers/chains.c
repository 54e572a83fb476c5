/* Chains of realloc: each thread grows several blocks in turn, as buffers and vectors grow, then
   shrinks and frees them. What realloc leaves behind is free for other threads. */
#include "driver.h"

#define CHAINS 4
#define ROUNDS 3
#define STEPS  12

static char *resize(char *block, size_t size)
{
    (void)*(volatile char *)block;
    return (char *)used(realloc(block, size));
}

static void work(unsigned thread)
{
    char *chains[CHAINS];
    (void)thread;
    for (int round = 0; round < ROUNDS; round++) {
        for (int it = 0; it < CHAINS; it++)
            chains[it] = take(run.size);
        for (size_t step = 2; step <= STEPS; step++)
            for (int it = 0; it < CHAINS; it++) {
                chains[it] = resize(chains[it], step * run.size);
                write_words(chains[it] + (step - 1) * run.size, run.size, 2);
            }
        for (size_t step = STEPS; step > 0; step /= 2)
            for (int it = 0; it < CHAINS; it++)
                chains[it] = resize(chains[it], step * run.size);
        for (int it = 0; it < CHAINS; it++)
            give(chains[it]);
    }
}

int main(int count, char **words) { return run_driver(count, words, NULL, work); }
