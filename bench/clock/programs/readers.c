// false: a lock for many readers, each of which says in a word of its own that it reads; nobody writes
#include "clock.h"

struct reader {
    volatile uint32_t reads;
} OWN;

ALONE static struct reader readers[THREADS];
ALONE static volatile uint32_t writes;
ALONE static volatile uint32_t guarded = 1;
ALONE static struct {
    uint32_t sum;
} APART seen[THREADS];

static void work(uint32_t self, uint32_t rounds)
{
    uint32_t sum = 0;
    for (uint32_t i = 0; i < rounds; i++) {
        STORE(readers[self].reads, 1);
        FENCE();
        if (LOAD(writes) == 0)
            sum += guarded;
        RELEASE(readers[self].reads, 0);
    }
    seen[self].sum = sum;
}

static uint32_t result(void)
{
    uint32_t sum = 0;
    for (int i = 0; i < THREADS; i++)
        sum += seen[i].sum;
    return sum;
}

RUN(nothing, work, result, 8000)
