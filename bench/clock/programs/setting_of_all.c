// mixed: a setting that all threads read, and beside it a counter to which all add, every hundred steps or so
#include "clock.h"

ALONE static struct {
    volatile uint32_t setting;
    uint32_t count OWN;
} shared = {.setting = 3};
ALONE static struct {
    uint32_t sum;
} APART seen[THREADS];

static void work(uint32_t self, uint32_t rounds)
{
    uint32_t sum = 0;
    for (uint32_t i = 0; i < rounds; i++) {
        ADD(shared.count, 1);
        for (uint32_t j = 0; j < 8; j++)
            sum += spend(i + j, 1) & shared.setting;
    }
    seen[self].sum = sum;
}

static uint32_t result(void)
{
    uint32_t sum = shared.count;
    for (int i = 0; i < THREADS; i++)
        sum += seen[i].sum;
    return sum;
}

RUN(nothing, work, result, 1000)
