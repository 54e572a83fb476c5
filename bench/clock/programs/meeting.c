// handover: a barrier after each piece of work: the number of those that came lies beside the round that the others wait for
#include "clock.h"

ALONE static struct {
    uint32_t came;
    uint32_t round OWN;
} meeting;
ALONE static struct {
    volatile uint32_t count;
} APART done[THREADS];

static void meet(uint32_t round)
{
    if (ADD(meeting.came, 1) + 1 == (round + 1) * THREADS)
        RELEASE(meeting.round, round + 1);
    else
        SPIN_WHILE(ACQUIRE(meeting.round) == round);
}

static void work(uint32_t self, uint32_t rounds)
{
    uint32_t value = self + 1;
    for (uint32_t i = 0; i < rounds; i++) {
        value = spend(value, 20);
        done[self].count += 1 + (value == 0);
        meet(i);
    }
}

static uint32_t result(void)
{
    uint32_t sum = 0;
    for (int i = 0; i < THREADS; i++)
        sum += done[i].count;
    return sum;
}

RUN(nothing, work, result, 150)
