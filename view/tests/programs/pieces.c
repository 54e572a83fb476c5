// An arena that hands out pieces of one block: each hart counts in a piece of its own, and two harts' pieces lie on one line.
#include "predator.h"

#define HARTS 4
#define TURNS 150
#define ROOM 4096

struct counts {
    volatile uint32_t hits, misses;
};

static uintptr_t begin, end;

static void *piece(uint32_t size)
{
#ifdef REPAIRED
    begin = (begin + 63) / 64 * 64;
    size = (size + 63) / 64 * 64;
#endif
    void *given = (void *)begin;
    begin += (size + 7) / 8 * 8;
    return begin <= end ? given : 0;
}

static int work(void *it)
{
    struct counts *own = it;
    for (int i = 0; i < TURNS; i++)
        if (i % 3)
            own->hits++;
        else
            own->misses++;
    return 0;
}

int main(void)
{
    struct counts *counts[HARTS];
    int harts[HARTS];
    uint32_t sum = 0;
    begin = (uintptr_t)predator_alloc(ROOM);
    end = begin + ROOM;
    for (int i = 0; i < HARTS; i++) {
        counts[i] = piece(sizeof *counts[i]);
        counts[i]->hits = counts[i]->misses = 0;
    }
    for (int i = 0; i < HARTS; i++)
        harts[i] = predator_spawn(work, counts[i]);
    for (int i = 0; i < HARTS; i++)
        predator_join(harts[i]);
    for (int i = 0; i < HARTS; i++)
        sum += counts[i]->hits + counts[i]->misses;
    return sum == HARTS * TURNS ? 0 : 1;
}
