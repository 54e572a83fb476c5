// mixed: a setting that all threads read, and beside it a counter that one of them changes
#include "clock.h"

ALONE static struct {
    volatile uint32_t setting;
    volatile uint32_t count OWN;
} shared = {.setting = 3};
ALONE static struct {
    uint32_t sum;
} APART seen[THREADS];

static void work(uint32_t self, uint32_t rounds)
{
    uint32_t sum = 0;
    for (uint32_t i = 0; i < rounds; i++) {
        if (self == 0)
            shared.count++;
        sum += spend(i, 1) & shared.setting;
    }
    seen[self].sum = sum;
}

static uint32_t result(void)
{
    uint32_t sum = shared.count;
    for (int i = 0; i < THREADS; i++)
        sum += seen[i].sum;
    return sum;
}

RUN(nothing, work, result, 5000)
