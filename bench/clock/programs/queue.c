// handover: a bounded queue of 32 cells, into which half of the threads put and from which the others take; both ends are side by side
#include "clock.h"

#define CELLS 32

struct cell {
    uint32_t turn;
    volatile uint32_t item;
};

ALONE static struct {
    uint32_t in;
    uint32_t out OWN;
    struct {
        struct cell at[CELLS];
    } OWN cells;
} queue;
ALONE static struct {
    uint32_t sum;
} APART taken[THREADS];

static void setup(void)
{
    for (uint32_t i = 0; i < CELLS; i++)
        queue.cells.at[i].turn = i;
}

static void put(uint32_t item)
{
    uint32_t at = ADD(queue.in, 1);
    struct cell *cell = &queue.cells.at[at % CELLS];
    SPIN_WHILE(ACQUIRE(cell->turn) != at);
    cell->item = item;
    RELEASE(cell->turn, at + 1);
}

static uint32_t take(void)
{
    uint32_t at = ADD(queue.out, 1);
    struct cell *cell = &queue.cells.at[at % CELLS];
    SPIN_WHILE(ACQUIRE(cell->turn) != at + 1);
    uint32_t item = cell->item;
    RELEASE(cell->turn, at + CELLS);
    return item;
}

static void work(uint32_t self, uint32_t rounds)
{
    uint32_t sum = 0;
    for (uint32_t i = 0; i < rounds; i++)
        if (self % 2 == 0)
            put(i);
        else
            sum += take();
    taken[self].sum = sum;
}

static uint32_t result(void)
{
    uint32_t sum = 0;
    for (int i = 0; i < THREADS; i++)
        sum += taken[i].sum;
    return sum;
}

RUN(setup, work, result, 2000)
