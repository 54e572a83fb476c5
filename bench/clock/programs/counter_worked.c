// true: one counter to which all threads add, every fifty steps or so
#include "clock.h"

ALONE static struct {
    uint32_t unused;
    uint32_t count OWN;
} shared;

static void work(uint32_t self, uint32_t rounds)
{
    uint32_t value = self + 1;
    for (uint32_t i = 0; i < rounds; i++) {
        value = spend(value, 5);
        ADD(shared.count, 1 + (value == 0));
    }
}

static uint32_t result(void)
{
    return shared.count;
}

RUN(nothing, work, result, 1500)
