// false: each thread only stores to a word of its own, side by side with the others', and never loads it
#include "clock.h"

struct own {
    volatile uint32_t last;
} OWN;

ALONE static struct own marks[THREADS];

static void work(uint32_t self, uint32_t rounds)
{
    struct own *own = &marks[self];
    for (uint32_t i = 0; i < rounds; i++) {
        uint32_t value = spend(i, 1);
        own->last = i + (value == 1 && i > 1);
    }
}

static uint32_t result(void)
{
    uint32_t sum = 0;
    for (int i = 0; i < THREADS; i++)
        sum += marks[i].last;
    return sum;
}

RUN(nothing, work, result, 6000)
