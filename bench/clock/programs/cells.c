// handover: the same queue with both ends apart in either form, and padded its cells, four of which lie in a line else
#include "clock.h"

#define CELLS 32

struct cell {
    uint32_t turn;
    volatile uint32_t item;
    uint32_t more[2];
} OWN;

ALONE static uint32_t in;
ALONE static uint32_t out;
ALONE static struct cell cells[CELLS];
ALONE static struct {
    uint32_t sum;
} APART taken[THREADS];

static void setup(void)
{
    for (uint32_t i = 0; i < CELLS; i++)
        cells[i].turn = i;
}

static void put(uint32_t item)
{
    uint32_t at = ADD(in, 1);
    struct cell *cell = &cells[at % CELLS];
    SPIN_WHILE(ACQUIRE(cell->turn) != at);
    cell->item = item;
    RELEASE(cell->turn, at + 1);
}

static uint32_t take(void)
{
    uint32_t at = ADD(out, 1);
    struct cell *cell = &cells[at % CELLS];
    SPIN_WHILE(ACQUIRE(cell->turn) != at + 1);
    uint32_t item = cell->item;
    RELEASE(cell->turn, at + CELLS);
    return item;
}

static void work(uint32_t self, uint32_t rounds)
{
    uint32_t sum = 0;
    for (uint32_t i = 0; i < rounds; i++)
        if (self % 2 == 0)
            put(i);
        else
            sum += take();
    taken[self].sum = sum;
}

static uint32_t result(void)
{
    uint32_t sum = 0;
    for (int i = 0; i < THREADS; i++)
        sum += taken[i].sum;
    return sum;
}

RUN(setup, work, result, 2000)
