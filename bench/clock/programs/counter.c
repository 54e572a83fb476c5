// true: one counter to which all threads add by an atomic instruction
#include "clock.h"

ALONE static struct {
    uint32_t unused;
    uint32_t count OWN;
} shared;

static void work(uint32_t self, uint32_t rounds)
{
    for (uint32_t i = 0; i < rounds; i++)
        ADD(shared.count, 1 + self);
}

static uint32_t result(void)
{
    return shared.count;
}

RUN(nothing, work, result, 10000)
