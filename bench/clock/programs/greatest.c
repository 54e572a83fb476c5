// true: the greatest number that any thread has seen, which all look at and seldom raise, by a lock beside it
#include "clock.h"

ALONE static struct {
    uint32_t lock;
    volatile uint32_t greatest OWN;
} shared;

static void work(uint32_t self, uint32_t rounds)
{
    uint32_t value = self + 1;
    for (uint32_t i = 0; i < rounds; i++) {
        value = next(value);
        if ((value >> 8) > shared.greatest) {
            lock(&shared.lock);
            if ((value >> 8) > shared.greatest)
                shared.greatest = value >> 8;
            unlock(&shared.lock);
        }
    }
}

static uint32_t result(void)
{
    return shared.greatest;
}

RUN(nothing, work, result, 10000)
