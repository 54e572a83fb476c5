// false: statistics of each thread, four words of which an operation changes two or three, in an array
#include "clock.h"

struct stats {
    volatile uint32_t hits, misses, bytes, longest;
} OWN;

ALONE static struct stats stats[THREADS];

static void work(uint32_t self, uint32_t rounds)
{
    struct stats *own = &stats[self];
    uint32_t value = self + 1;
    for (uint32_t i = 0; i < rounds; i++) {
        value = next(value);
        uint32_t size = value >> 24;
        if (size & 1)
            own->hits++;
        else
            own->misses++;
        own->bytes += size;
        if (size > own->longest)
            own->longest = size;
    }
}

static uint32_t result(void)
{
    uint32_t sum = 0;
    for (int i = 0; i < THREADS; i++)
        sum += stats[i].hits + stats[i].misses + stats[i].bytes + stats[i].longest;
    return sum;
}

RUN(nothing, work, result, 4000)
