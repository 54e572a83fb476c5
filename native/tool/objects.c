/* What has a name in a trace: symbols of data, and blocks with their call sites (sites.c). They are
   written for the regions that have a place: where a region gets one, those that lie in it, and
   from then on each block that is made in it. What reaches over several regions is written in
   pieces. */
#include "parts.h"

/* ---- Symbols ---- */

typedef struct {
    Addr addr;
    UInt size;
    const HChar *name;
} Symbol;

static Symbol *symbols;
static UInt symbol_count, symbol_room;
Bool libraries_came;

UInt plain_length(const HChar *name)
{
    UInt length = 0;
    while (name[length] && name[length] != '@')
        length++;
    return length > 0 ? length : VG_(strlen)(name);
}

void put_symbol(UInt kind, UInt addr, UInt size, const HChar *name)
{
    UChar bytes[SYMBOL_HEAD_BYTES + NAME_MOST];
    UInt length = plain_length(name);
    if (length > NAME_MOST)
        length = NAME_MOST;
    bytes[0] = TAG_SYMBOL;
    bytes[1] = kind;
    spell(bytes + 2, addr, 4);
    spell(bytes + 6, size, 4);
    spell(bytes + 10, length, 2);
    VG_(memcpy)(bytes + SYMBOL_HEAD_BYTES, name, length);
    trace_put(bytes, SYMBOL_HEAD_BYTES + length);
}

static void tell_symbol(const Region *region, const Symbol *it)
{
    Addr first;
    SizeT size = part_of(region->region, it->addr, it->size, &first);
    if (size > 0)
        put_symbol(SYMBOL_OF_DATA, folded(region - regions, first), size, it->name);
}

void symbols_of(const Region *region)
{
    UInt it;
    for (it = 0; it < symbol_count; it++)
        tell_symbol(region, &symbols[it]);
}

#define MOST_LIBRARIES 4096
Library libraries[MOST_LIBRARIES];
UInt library_count;

static Bool is_known(Addr text, const HChar *path)
{
    UInt it;
    for (it = 0; it < library_count; it++)
        if (libraries[it].text == text && VG_(strcmp)(libraries[it].path, path) == 0)
            return True;
    return library_count == MOST_LIBRARIES;
}

void trace_library(void) { libraries_came = True; }

static OSet *symbol_places; /* the addresses of those that were noted */

void note_symbol(Addr addr, UInt size, const HChar *name, Bool only_new)
{
    Bool is_new = !VG_(OSetWord_Contains)(symbol_places, addr);
    if (only_new && !is_new)
        return;
    if (is_new)
        VG_(OSetWord_Insert)(symbol_places, addr);
    if (symbol_count == symbol_room) {
        symbol_room = symbol_room ? 2 * symbol_room : 4096;
        symbols = VG_(realloc)("predator.symbols", symbols, symbol_room * sizeof *symbols);
    }
    symbols[symbol_count++] = (Symbol){addr, size, VG_(strdup)("predator.symbol", name)};
}

static void read_library(const DebugInfo *info, Addr text, SizeT text_size)
{
    Int count = VG_(DebugInfo_syms_howmany)(info), it;
    for (it = 0; it < count; it++) {
        Addr addr;
        UInt size;
        const HChar *name, **others;
        Bool is_text, is_ifunc, is_global;
        VG_(DebugInfo_syms_getidx)
        (info, it, &addr, &size, &name, &others, &is_text, &is_ifunc, &is_global);
        if (!is_text && !is_ifunc && size > 0 && !(text <= addr && addr < text + text_size))
            note_symbol(addr, size, name, False);
    }
}

void read_libraries(void)
{
    const DebugInfo *info;
    libraries_came = False;
    for (info = VG_(next_DebugInfo)(NULL); info; info = VG_(next_DebugInfo)(info)) {
        Addr text = VG_(DebugInfo_get_text_avma)(info), bias = VG_(DebugInfo_get_text_bias)(info);
        const HChar *path = VG_(DebugInfo_get_filename)(info);
        SizeT text_size = VG_(DebugInfo_get_text_size)(info);
        UInt from = symbol_count, region, it;
        if (is_known(text, path) || VG_(strstr)(path, "/predator-amd64-linux"))
            continue;
        sites_read(info, library_count);
        libraries[library_count++] = (Library){text, VG_(strdup)("predator.library", path), bias};
        table_text("map 0x%lx 0x%lx 0x%lx %s\n", text, text + text_size, bias, path);
        read_library(info, text, text_size);
        SYMBOLS_LEFT_OUT(path, bias);
        for (region = 0; region < region_count; region++)
            for (it = from; it < symbol_count; it++)
                tell_symbol(&regions[region], &symbols[it]);
    }
}

/* ---- Blocks ---- */

typedef struct {
    Addr addr;
    SizeT size;
    Addr sites[4];
    Bool in_trace; /* in the regions that have a place */
} Block;

static OSet *blocks;
static Block *large[1024]; /* those of more than a region */
static UInt large_count;
static Addr *unrecorded; /* where blocks were made while nothing was recorded */
static UInt unrecorded_count, unrecorded_room;
static Block last_freed[MOST_THREADS + 1];

static void put_block(const Block *it, UInt index)
{
    UChar bytes[ALLOC_BYTES];
    Addr first;
    UInt site;
    SizeT size = part_of(regions[index].region, it->addr, it->size, &first);
    if (it->size == 0 && regions[index].region == (it->addr & ~(REGION - 1)))
        first = it->addr;
    else if (size == 0)
        return;
    bytes[0] = TAG_ALLOC;
    spell(bytes + 1, folded(index, first), 4);
    spell(bytes + 5, size, 4);
    for (site = 0; site < 4; site++)
        spell(bytes + 9 + 4 * site, it->sites[site] ? site_of(it->sites[site]) : 0, 4);
    trace_put(bytes, ALLOC_BYTES);
}

/* The regions that the block lies in and that have a place, one after the other, from `from` on; or
 * -1. */
static Int next_region(const Block *it, Addr *from)
{
    Addr last = it->addr + (it->size ? it->size - 1 : 0);
    for (; *from <= last; *from += REGION) {
        Int index = region_of(*from, False);
        if (index >= 0) {
            *from += REGION;
            return index;
        }
    }
    return -1;
}

static void tell_block(Block *it)
{
    Addr from = it->addr & ~(REGION - 1);
    Int index;
    it->in_trace = True;
    while ((index = next_region(it, &from)) >= 0)
        put_block(it, index);
}

static void tell_end(const Block *it)
{
    Addr from = it->addr & ~(REGION - 1), first;
    Int index;
    while (it->in_trace && (index = next_region(it, &from)) >= 0) {
        UChar bytes[FREE_BYTES] = {TAG_FREE};
        part_of(regions[index].region, it->addr, it->size, &first);
        spell(bytes + 1, folded(index, first), 4);
        trace_put(bytes, FREE_BYTES);
    }
}

void blocks_of(const Region *region)
{
    Addr from = region->region - REGION;
    Block *it;
    UInt large_one;
    Block *found[256];
    UInt count;
    for (large_one = 0; large_one < large_count; large_one++)
        if (large[large_one]->in_trace)
            put_block(large[large_one], region - regions);
    /* Writing a block may give a place to the region of a call site, whose blocks are written then:
     * so the search begins anew. */
    do {
        count = 0;
        VG_(OSetGen_ResetIterAt)(blocks, &from);
        while (count < 256 && (it = VG_(OSetGen_Next)(blocks)) &&
               it->addr < region->region + REGION) {
            if (it->in_trace && it->size <= REGION)
                found[count++] = it;
            from = it->addr + 1;
        }
        for (large_one = 0; large_one < count; large_one++)
            put_block(found[large_one], region - regions);
    } while (count == 256);
}

static void drop_large(const Block *block)
{
    UInt it;
    for (it = 0; it < large_count; it++)
        if (large[it] == block)
            large[it] = large[--large_count];
}

static void make_block(Addr addr, SizeT size, const Addr *own)
{
    Block *it = VG_(OSetGen_AllocNode)(blocks, sizeof *it);
    it->addr = addr;
    it->size = size;
    it->in_trace = False;
    VG_(memcpy)(it->sites, own, sizeof it->sites);
    VG_(OSetGen_Insert)(blocks, it);
    if (size > REGION) {
        if (large_count < 1024)
            large[large_count++] = it;
    }
    if (trace_records) {
        tell_block(it);
        return;
    }
    if (unrecorded_count == unrecorded_room) {
        unrecorded_room = unrecorded_room ? 2 * unrecorded_room : 4096;
        unrecorded =
            VG_(realloc)("predator.unrecorded", unrecorded, unrecorded_room * sizeof *unrecorded);
    }
    unrecorded[unrecorded_count++] = addr;
}

void trace_block(ThreadId tid, Addr addr, SizeT size)
{
    Addr calls[5], own[4] = {0, 0, 0, 0};
    UInt count, it;
    if (!trace_is_open())
        return;
    count = VG_(get_StackTrace)(tid, calls, 5, NULL, NULL, 0);
    for (it = 1; it < count; it++)
        own[it - 1] = calls[it];
    trace_free(tid, addr);
    make_block(addr, size, own);
}

void trace_free(ThreadId tid, Addr addr)
{
    Block *it;
    if (!trace_is_open())
        return;
    it = VG_(OSetGen_Lookup)(blocks, &addr);
    last_freed[tid].addr = 0;
    if (it == NULL)
        return;
    tell_end(it);
    last_freed[tid] = *it;
    if (it->size > REGION)
        drop_large(it);
    VG_(OSetGen_Remove)(blocks, &addr);
    VG_(OSetGen_FreeNode)(blocks, it);
}

void trace_revive(ThreadId tid, Addr addr)
{
    if (trace_is_open() && last_freed[tid].addr == addr)
        make_block(addr, last_freed[tid].size, last_freed[tid].sites);
}

void tell_untold(void)
{
    UInt it;
    for (it = 0; it < unrecorded_count; it++) {
        Block *block = VG_(OSetGen_Lookup)(blocks, &unrecorded[it]);
        if (block && !block->in_trace)
            tell_block(block);
    }
    unrecorded_count = 0;
}

void objects_begin(void)
{
    blocks = VG_(OSetGen_Create)(0, NULL, VG_(malloc), "predator.blocks", VG_(free));
    symbol_places = VG_(OSetWord_Create)(VG_(malloc), "predator.places", VG_(free));
    sites_begin();
}
