// none: each thread counts in a line of its own in either form
#include "clock.h"

struct own {
    volatile uint32_t count;
    uint32_t unused[LINE / 4 - 2];
    volatile uint32_t last OWN;
} APART;

ALONE static struct own counters[THREADS];

static void work(uint32_t self, uint32_t rounds)
{
    struct own *own = &counters[self];
    for (uint32_t i = 0; i < rounds; i++) {
        own->count++;
        own->last = i;
    }
}

static uint32_t result(void)
{
    uint32_t sum = 0;
    for (int i = 0; i < THREADS; i++)
        sum += counters[i].count;
    return sum;
}

RUN(nothing, work, result, 10000)
