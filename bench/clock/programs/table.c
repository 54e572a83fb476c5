// true: a table of 32 words that all threads read and nobody writes
#include "clock.h"

#define WORDS 32

struct word {
    volatile uint32_t value;
} OWN;

ALONE static struct word words[WORDS];
ALONE static struct {
    uint32_t sum;
} APART seen[THREADS];

static void setup(void)
{
    for (uint32_t i = 0; i < WORDS; i++)
        words[i].value = i * i;
}

static void work(uint32_t self, uint32_t rounds)
{
    uint32_t sum = 0, value = self + 1;
    for (uint32_t i = 0; i < rounds; i++) {
        value = next(value);
        sum += words[(value >> 16) % WORDS].value;
    }
    seen[self].sum = sum;
}

static uint32_t result(void)
{
    uint32_t sum = 0;
    for (int i = 0; i < THREADS; i++)
        sum += seen[i].sum;
    return sum;
}

RUN(setup, work, result, 10000)
