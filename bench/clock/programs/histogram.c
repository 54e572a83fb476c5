// false: a histogram of twelve bins for each thread, one behind the other, so that neighbours meet on the lines between them
#include "clock.h"

#define BINS 12

struct bins {
    volatile uint32_t count[BINS];
} OWN;

ALONE static struct bins bins[THREADS];

static void work(uint32_t self, uint32_t rounds)
{
    uint32_t value = self + 1;
    for (uint32_t i = 0; i < rounds; i++) {
        value = next(value);
        bins[self].count[(value >> 16) % BINS]++;
    }
}

static uint32_t result(void)
{
    uint32_t sum = 0;
    for (int i = 0; i < THREADS; i++)
        for (int bin = 0; bin < BINS; bin++)
            sum += bins[i].count[bin] * (uint32_t)(bin + 1);
    return sum;
}

RUN(nothing, work, result, 6000)
