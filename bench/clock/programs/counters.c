// false: each thread adds to a word of its own, side by side with the others'
#include "clock.h"

struct own {
    volatile uint32_t count;
} OWN;

ALONE static struct own counters[THREADS];

static void work(uint32_t self, uint32_t rounds)
{
    struct own *own = &counters[self];
    for (uint32_t i = 0; i < rounds; i++)
        own->count++;
}

static uint32_t result(void)
{
    uint32_t sum = 0;
    for (int i = 0; i < THREADS; i++)
        sum += counters[i].count;
    return sum;
}

RUN(nothing, work, result, 20000)
