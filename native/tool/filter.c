/* Which accesses a filtered trace leaves out: filter.h says how. */
#include "parts.h"

#ifndef NUMBER_BITS /* (fewer where that is tried) */
#define NUMBER_BITS 22
#endif
#define LAST_NUMBER (((1UL << NUMBER_BITS) - 1) * STAMP_NUMBER)

typedef struct {
    UInt number;
    UInt last; /* the thread that came near it last, as it stands in a stamp, or 0 */
} Near;

UInt trace_near, near_bits;
Chunk *no_chunk;
static Near *nears; /* of each region, behind one before the first */
#ifndef PREDATOR_RUNTIME
Chunk *chunks_at[1 << CHUNK_BITS];
#endif

static Chunk *new_chunk(void)
{
    return EMPTY_MEMORY(sizeof(Chunk) + (REGION >> near_bits) * sizeof(ULong));
}

Bool filter_begin(void)
{
    if (trace_near == 0)
        return True;
    near_bits = trace_near < 12 ? trace_near : 12;
    nears = EMPTY_MEMORY(((1UL << (32 - trace_near)) + 2) * sizeof *nears);
    no_chunk = new_chunk();
    if (!nears || !no_chunk) {
        VG_(printf)("predator native: no memory is left for what a filtered trace leaves out\n");
        return False;
    }
    nears++;
#ifndef PREDATOR_RUNTIME
    UInt it;
    for (it = 0; it < 1 << CHUNK_BITS; it++)
        chunks_at[it] = no_chunk;
#endif
    return True;
}

/* The ranges of a region that are memory of the program, one after the other: each one's chunk, and
   where it begins in it; none where there is no further one. */
static Chunk *next_range(UInt region, UInt *step, UInt *at)
{
    while (*step < 1U << (trace_near - near_bits)) {
        ULong place = ((ULong)region << trace_near) + ((ULong)(*step)++ << near_bits);
        Int index = region_at(place, at);
        if (index >= 0 && regions[index].chunk)
            return regions[index].chunk;
    }
    return NULL;
}

static void publish(UInt region)
{
    UInt step = 0, at;
    Chunk *it;
    while ((it = next_range(region, &step, &at)))
        it->numbers[at >> near_bits] = DOUBLED(nears[region].number);
}

/* No stamp of a region is right any more, once its number has risen: where no higher one is left,
   it begins anew. */
static void forget(UInt region)
{
    UInt step = 0, at;
    Chunk *it;
    while ((it = next_range(region, &step, &at)))
        VG_(memset)(it->stamps + at / 4, 0, 1U << near_bits);
    nears[region].number = 0;
}

static void raise_number(UInt region)
{
    Near *it = &nears[(Int)region];
    if (it->number == LAST_NUMBER)
        forget(region);
    it->number += STAMP_NUMBER;
    publish(region);
}

static void come_near(UInt region, UInt thread)
{
    Near *it = &nears[(Int)region];
    if (it->last == thread)
        return;
    it->last = thread;
    raise_number(region);
}

void filter_part(void)
{
    UInt index, region;
    for (index = 0; index < region_count; index++) {
        UInt place = regions[index].place;
        if (regions[index].chunk)
            for (region = place >> trace_near; region <= (place + REGION - 1) >> trace_near;
                 region++)
                raise_number(region);
    }
}

UInt *filter_stamps(UInt index, UInt place)
{
    Region *it = &regions[index];
    if (!it->chunk) {
        UInt region;
        it->chunk = new_chunk();
        if (!it->chunk) {
            trace_stop("error", "no memory is left for what a filtered trace leaves out");
            return NULL;
        }
        for (region = it->place >> trace_near; region <= (it->place + REGION - 1) >> trace_near;
             region++)
            publish(region);
#ifndef PREDATOR_RUNTIME
        if (it->region >> 20 < 1 << CHUNK_BITS)
            chunks_at[it->region >> 20] = it->chunk;
#endif
    }
    return it->chunk->stamps + (place - it->place) / 4;
}

Bool filter_keeps(UInt hart, Bool writes, UInt place, UInt *stamp)
{
    UInt region = place >> trace_near, thread = (hart + 1) * STAMP_THREAD,
         own = nears[region].number | thread | STAMP_WRITES;
    if (*stamp == own || (!writes && *stamp == own - STAMP_WRITES))
        return False;
    come_near(region - 1, thread);
    come_near(region, thread);
    come_near(region + 1, thread);
    *stamp = nears[region].number | thread | (writes ? STAMP_WRITES : 0);
    return True;
}
