// handover: a ticket lock, whose two words lie side by side, over a count on a line of its own
#include "clock.h"

ALONE static struct {
    uint32_t next;
    uint32_t served OWN;
} tickets;
ALONE static volatile uint32_t guarded;

static void work(uint32_t self, uint32_t rounds)
{
    uint32_t value = self + 1;
    for (uint32_t i = 0; i < rounds; i++) {
        value = spend(value, 4);
        uint32_t own = ADD(tickets.next, 1);
        SPIN_WHILE(ACQUIRE(tickets.served) != own);
        guarded += 1 + (value == 0);
        RELEASE(tickets.served, own + 1);
    }
}

static uint32_t result(void)
{
    return guarded;
}

RUN(nothing, work, result, 500)
