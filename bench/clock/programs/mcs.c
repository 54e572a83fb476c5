// handover: the lock of Mellor-Crummey and Scott, whose waiters stand in a row, each at a node of its own; the nodes lie side by side
#include "clock.h"

struct node {
    uint32_t follower, waits;
} OWN;

// (nodes are named by their number plus 1)
ALONE static struct node nodes[THREADS + 1];
ALONE static uint32_t last;
ALONE static volatile uint32_t guarded;

static void enter(uint32_t own)
{
    STORE(nodes[own].follower, 0);
    STORE(nodes[own].waits, 1);
    uint32_t before = SWAP(last, own);
    if (before != 0) {
        RELEASE(nodes[before].follower, own);
        SPIN_WHILE(ACQUIRE(nodes[own].waits));
    }
}

static void leave(uint32_t own)
{
    uint32_t follower = ACQUIRE(nodes[own].follower);
    if (follower == 0) {
        if (try_set(&last, own, 0))
            return;
        SPIN_WHILE((follower = ACQUIRE(nodes[own].follower)) == 0);
    }
    RELEASE(nodes[follower].waits, 0);
}

static void work(uint32_t self, uint32_t rounds)
{
    uint32_t value = self + 1;
    for (uint32_t i = 0; i < rounds; i++) {
        value = spend(value, 4);
        enter(self + 1);
        guarded += 1 + (value == 0);
        leave(self + 1);
    }
}

static uint32_t result(void)
{
    return guarded;
}

RUN(nothing, work, result, 500)
