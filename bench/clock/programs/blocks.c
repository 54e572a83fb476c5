// false: each thread sums up 100 numbers at a time in a register, and then adds to its partial sum, side by side with the others'
#include "clock.h"

#define NUMBERS 2000
#define BLOCK 100

struct partial {
    volatile uint32_t sum;
} OWN;

ALONE static volatile uint32_t numbers[NUMBERS];
ALONE static struct partial partials[THREADS];

static void setup(void)
{
    for (uint32_t i = 0; i < NUMBERS; i++)
        numbers[i] = i * i;
}

static void work(uint32_t self, uint32_t rounds)
{
    uint32_t at = self * BLOCK;
    for (uint32_t i = 0; i < rounds; i++) {
        uint32_t sum = 0;
        for (uint32_t j = 0; j < BLOCK; j++)
            sum += numbers[at + j];
        partials[self].sum += sum;
        at = (at + BLOCK) % NUMBERS;
    }
}

static uint32_t result(void)
{
    uint32_t sum = 0;
    for (int i = 0; i < THREADS; i++)
        sum += partials[i].sum;
    return sum;
}

RUN(setup, work, result, 200)
