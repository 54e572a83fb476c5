// false: each thread adds what it reads of an array to its partial sum, side by side with the others'
#include "clock.h"

#define NUMBERS 2048

struct partial {
    volatile uint32_t sum;
} OWN;

ALONE static uint32_t numbers[NUMBERS];
ALONE static struct partial partials[THREADS];

static void setup(void)
{
    for (uint32_t i = 0; i < NUMBERS; i++)
        numbers[i] = i * i;
}

static void work(uint32_t self, uint32_t rounds)
{
    uint32_t share = NUMBERS / THREADS;
    for (uint32_t i = 0; i < rounds; i++)
        partials[self].sum += numbers[self * share + i % share];
}

static uint32_t result(void)
{
    uint32_t sum = 0;
    for (int i = 0; i < THREADS; i++)
        sum += partials[i].sum;
    return sum;
}

RUN(setup, work, result, 8000)
