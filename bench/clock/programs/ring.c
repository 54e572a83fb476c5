// handover: rings of 16 items between two threads each; head and tail lie side by side, and the items behind them
#include "clock.h"

#define ROOM 16

struct ring {
    uint32_t head;
    uint32_t tail OWN;
    struct {
        volatile uint32_t slots[ROOM];
    } OWN items;
} APART;

ALONE static struct ring rings[THREADS / 2];
ALONE static struct {
    uint32_t sum;
} APART taken[THREADS / 2];

static void put(struct ring *ring, uint32_t item)
{
    uint32_t head = LOAD(ring->head);
    SPIN_WHILE(head - ACQUIRE(ring->tail) == ROOM);
    ring->items.slots[head % ROOM] = item;
    RELEASE(ring->head, head + 1);
}

static uint32_t take(struct ring *ring)
{
    uint32_t tail = LOAD(ring->tail);
    SPIN_WHILE(ACQUIRE(ring->head) == tail);
    uint32_t item = ring->items.slots[tail % ROOM];
    RELEASE(ring->tail, tail + 1);
    return item;
}

static void work(uint32_t self, uint32_t rounds)
{
    uint32_t sum = 0;
    for (uint32_t i = 0; i < rounds; i++)
        if (self % 2 == 0)
            put(&rings[self / 2], i);
        else
            sum += take(&rings[self / 2]);
    if (self % 2 == 1)
        taken[self / 2].sum = sum;
}

static uint32_t result(void)
{
    uint32_t sum = 0;
    for (int i = 0; i < THREADS / 2; i++)
        sum += taken[i].sum;
    return sum;
}

RUN(nothing, work, result, 3000)
