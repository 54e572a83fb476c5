/* Which place in the trace an address has.

   Addresses of 64 bits become 32 while the program runs. Regions of 1 MiB get places of 1 MiB and 4
   KiB in the order of their first touch, so what lies side by side in a region stays so, and no two
   regions become neighbours. Instructions that are recorded with accesses get numbers from the
   other end on, so that data lies where it does without; one behind the other, so that the next one
   is mostly near. */
#include "parts.h"

#define FIRST        0x10000UL
#define MOST_REGIONS 4080 /* the last place ends below 2^32 */

Region regions[MOST_REGIONS];
UInt region_count;
static ULong code_end = 1UL << 32; /* the lowest number that an instruction has */
static UInt region_hash[16384];    /* an index and 1, or 0 */
static struct {
    Addr region;
    UInt index;
} near_regions[256]; /* the same for what was used last, index and 1 */

static ULong place_of_region(UInt index) { return FIRST + index * (REGION + PAGE); }

static UInt region_slot(Addr region)
{
    UInt at = ((region >> 20) * 0x9E3779B97F4A7C15UL) >> 50;
    while (region_hash[at] != 0 && regions[region_hash[at] - 1].region != region)
        at = (at + 1) % 16384;
    return at;
}

Int region_of(Addr addr, Bool places)
{
    Addr region = addr & ~(REGION - 1);
    UInt near = (region >> 20) % 256;
    if (near_regions[near].region == region && near_regions[near].index)
        return near_regions[near].index - 1;
    UInt slot = region_slot(region);
    if (region_hash[slot] == 0) {
        if (!places)
            return -1;
        if (region_count == MOST_REGIONS || place_of_region(region_count) + REGION > code_end) {
            trace_stop("addresses", "more than 4080 MiB of addresses were touched");
            return -1;
        }
        Region *it = &regions[region_count];
        it->region = region;
        it->place = place_of_region(region_count);
        region_hash[slot] = ++region_count;
        symbols_of(it);
        blocks_of(it);
    }
    near_regions[near].region = region;
    near_regions[near].index = region_hash[slot];
    return region_hash[slot] - 1;
}

Int region_at(ULong place, UInt *at)
{
    UInt behind = place - FIRST, index = behind / (REGION + PAGE);
    *at = behind % (REGION + PAGE);
    return place >= FIRST && index < region_count && *at < REGION ? (Int)index : -1;
}

UInt folded(UInt index, Addr addr)
{
    Region *it = &regions[index];
    UInt offset = addr & (REGION - 1), page = offset / PAGE;
    if (!(it->pages[page / 64] >> (page % 64) & 1)) {
        it->pages[page / 64] |= 1UL << (page % 64);
        table_text("0x%08x 0x%lx\n", it->place + page * (UInt)PAGE, it->region + page * PAGE);
        tell_file(it->region + page * PAGE);
    }
    return it->place + offset;
}

UInt code_number(void)
{
    if (code_end - 1 < place_of_region(region_count)) {
        trace_stop("addresses", "more than 4080 MiB of addresses were touched");
        return 0;
    }
    return --code_end;
}

SizeT part_of(Addr region, Addr addr, SizeT size, Addr *first)
{
    Addr from = addr > region ? addr : region,
         to = addr + size < region + REGION ? addr + size : region + REGION;
    *first = from;
    return from < to ? to - from : 0;
}
