// true: a word that says whose turn it is, which goes round all threads, and beside it only what the one whose turn it is uses
#include "clock.h"

ALONE static struct {
    uint32_t turn;
    volatile uint32_t count OWN;
} shared;

static void work(uint32_t self, uint32_t rounds)
{
    for (uint32_t i = 0; i < rounds; i++) {
        SPIN_WHILE(ACQUIRE(shared.turn) != self);
        shared.count++;
        RELEASE(shared.turn, (self + 1) % THREADS);
    }
}

static uint32_t result(void)
{
    return shared.count;
}

RUN(nothing, work, result, 150)
