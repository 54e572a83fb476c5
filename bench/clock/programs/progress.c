// mixed: each thread writes its progress into a word of its own, and the first one reads them all after each thirty-second step of its own
#include "clock.h"

struct own {
    volatile uint32_t step;
} OWN;

ALONE static struct own steps[THREADS];
ALONE static volatile uint32_t greatest;

static void work(uint32_t self, uint32_t rounds)
{
    for (uint32_t i = 1; i <= rounds; i++) {
        steps[self].step = i + (spend(i, 2) == 0);
        if (self == 0 && i % 32 == 0)
            for (uint32_t other = 0; other < THREADS; other++)
                if (steps[other].step > greatest)
                    greatest = steps[other].step;
    }
}

static uint32_t result(void)
{
    uint32_t sum = 0;
    for (int i = 0; i < THREADS; i++)
        sum += steps[i].step;
    return sum;
}

RUN(nothing, work, result, 4000)
