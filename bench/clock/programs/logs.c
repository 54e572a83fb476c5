// false: a log of 20 words for each thread, one behind the other, that it fills from its begin over and over
#include "clock.h"

#define ENTRIES 20

struct log {
    volatile uint32_t entries[ENTRIES];
} OWN;

ALONE static struct log logs[THREADS];

static void work(uint32_t self, uint32_t rounds)
{
    uint32_t at = 0;
    for (uint32_t i = 0; i < rounds; i++) {
        logs[self].entries[at] = spend(i, 2);
        at = at + 1 < ENTRIES ? at + 1 : 0;
    }
}

static uint32_t result(void)
{
    uint32_t sum = 0;
    for (int i = 0; i < THREADS; i++)
        for (int j = 0; j < ENTRIES; j++)
            sum += logs[i].entries[j];
    return sum;
}

RUN(nothing, work, result, 3000)
