// mixed: one histogram of sixteen bins, in which all threads count by atomic instructions
#include "clock.h"

#define BINS 16

struct bin {
    uint32_t count;
} OWN;

ALONE static struct bin bins[BINS];

static void work(uint32_t self, uint32_t rounds)
{
    uint32_t value = self + 1;
    for (uint32_t i = 0; i < rounds; i++) {
        value = next(value);
        ADD(bins[(value >> 16) % BINS].count, 1);
    }
}

static uint32_t result(void)
{
    uint32_t sum = 0;
    for (int i = 0; i < BINS; i++)
        sum += bins[i].count * (uint32_t)(i + 1);
    return sum;
}

RUN(nothing, work, result, 6000)
