// handover: Anderson's lock, where each waiter spins at a slot of its own; the slots lie side by side
#include "clock.h"

#define SLOTS 8

struct slot {
    uint32_t is_free;
} OWN;

ALONE static struct slot slots[SLOTS];
ALONE static uint32_t next_slot;
ALONE static volatile uint32_t guarded;

static void setup(void)
{
    slots[0].is_free = 1;
}

static void work(uint32_t self, uint32_t rounds)
{
    uint32_t value = self + 1;
    for (uint32_t i = 0; i < rounds; i++) {
        value = spend(value, 4);
        uint32_t own = ADD(next_slot, 1) % SLOTS;
        SPIN_WHILE(!ACQUIRE(slots[own].is_free));
        STORE(slots[own].is_free, 0);
        guarded += 1 + (value == 0);
        RELEASE(slots[(own + 1) % SLOTS].is_free, 1);
    }
}

static uint32_t result(void)
{
    return guarded;
}

RUN(setup, work, result, 500)
