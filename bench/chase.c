/* How long a load takes that misses the caches: chase MEGABYTES goes from one place to the next
   over so many megabytes, in random order, so that each load waits for the one before it, and
   prints the nanoseconds of one. Built by `cc -O2 bench/chase.c -o chase`. */
#include <stdint.h>
#include <stdio.h>
#include <stdlib.h>
#include <time.h>

enum { LINE = 64, LOADS = 5000000 };

static double seconds(void)
{
    struct timespec now;
    clock_gettime(CLOCK_MONOTONIC, &now);
    return (double)now.tv_sec + (double)now.tv_nsec / 1e9;
}

int main(int count, char **words)
{
    size_t lines = (count > 1 ? strtoul(words[1], 0, 10) : 33) * 1000000 / LINE;
    uint32_t *order = malloc(lines * sizeof *order);
    char *memory = malloc(lines * LINE);
    uint64_t random = 1;
    if (!order || !memory || lines < 2)
        return 1;
    for (size_t i = 0; i < lines; i++)
        order[i] = (uint32_t)i;
    for (size_t i = lines - 1; i > 0; i--) {
        random = random * 6364136223846793005u + 1442695040888963407u;
        size_t other = (random >> 33) % (i + 1);
        uint32_t kept = order[i];
        order[i] = order[other];
        order[other] = kept;
    }
    for (size_t i = 0; i < lines; i++)
        *(uint32_t *)(memory + (size_t)order[i] * LINE) = order[(i + 1) % lines];
    uint32_t at = order[0];
    double begun = seconds();
    for (int i = 0; i < LOADS; i++)
        at = *(uint32_t *)(memory + (size_t)at * LINE);
    double took = (seconds() - begun) / LOADS * 1e9;
    printf("%.0f ns a load (%u)\n", took, (unsigned)at);
    return 0;
}
