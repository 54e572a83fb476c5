// handover: rings of 64 items between two threads each, where each side keeps what it last saw of the other's index beside its own
#include "clock.h"

#define ROOM 64

struct side {
    uint32_t index;
    volatile uint32_t other;
} OWN;

struct ring {
    struct side in, out;
    struct {
        volatile uint32_t slots[ROOM];
    } APART items;
} APART;

ALONE static struct ring rings[THREADS / 2];
ALONE static struct {
    uint32_t sum;
} APART taken[THREADS / 2];

static void put(struct ring *ring, uint32_t item)
{
    uint32_t at = LOAD(ring->in.index);
    if (at - ring->in.other == ROOM)
        SPIN_WHILE((ring->in.other = ACQUIRE(ring->out.index)) == at - ROOM);
    ring->items.slots[at % ROOM] = item;
    RELEASE(ring->in.index, at + 1);
}

static uint32_t take(struct ring *ring)
{
    uint32_t at = LOAD(ring->out.index);
    if (ring->out.other == at)
        SPIN_WHILE((ring->out.other = ACQUIRE(ring->in.index)) == at);
    uint32_t item = ring->items.slots[at % ROOM];
    RELEASE(ring->out.index, at + 1);
    return item;
}

static void work(uint32_t self, uint32_t rounds)
{
    uint32_t sum = 0;
    for (uint32_t i = 0; i < rounds; i++)
        if (self % 2 == 0)
            put(&rings[self / 2], i);
        else
            sum += take(&rings[self / 2]);
    if (self % 2 == 1)
        taken[self / 2].sum = sum;
}

static uint32_t result(void)
{
    uint32_t sum = 0;
    for (int i = 0; i < THREADS / 2; i++)
        sum += taken[i].sum;
    return sum;
}

RUN(nothing, work, result, 4000)
