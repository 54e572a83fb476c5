// false: words of each thread's own side by side, to which it adds every fifty thousand steps or so
#include "clock.h"

struct own {
    volatile uint32_t count;
} OWN;

ALONE static struct own counters[THREADS];

static void work(uint32_t self, uint32_t rounds)
{
    uint32_t value = self + 1;
    for (uint32_t i = 0; i < rounds; i++) {
        value = spend(value, 5000);
        counters[self].count += 1 + (value == 0);
    }
}

static uint32_t result(void)
{
    uint32_t sum = 0;
    for (int i = 0; i < THREADS; i++)
        sum += counters[i].count;
    return sum;
}

RUN(nothing, work, result, 16)
