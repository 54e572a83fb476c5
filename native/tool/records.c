/* What stands in the trace of an access. */
#include "parts.h"

/* The pages that were touched last, each by its last address, with their first address in the
 * trace. */
static struct {
    Addr last;
    UInt place;
    UInt *stamps; /* of a filtered trace */
} near_pages[1024];

/* What the address is in the trace, or 0 where it gets no place. */
static __attribute__((noinline)) UInt place_anew(Addr addr)
{
    UInt near = addr / PAGE % 1024;
    Int index = region_of(addr, True);
    if (index < 0)
        return 0;
    near_pages[near].place = folded(index, addr) - addr % PAGE;
    if (trace_near && !(near_pages[near].stamps = filter_stamps(index, near_pages[near].place)))
        return 0;
    near_pages[near].last = addr | (PAGE - 1);
    return near_pages[near].place + addr % PAGE;
}

static inline UInt place_of(Addr addr)
{
    UInt near = addr / PAGE % 1024;
    return near_pages[near].last == (addr | (PAGE - 1)) ? near_pages[near].place + addr % PAGE
                                                        : place_anew(addr);
}

static inline void put_plain(UInt hart, Bool writes, UInt addr, UInt size)
{
    ULong record =
        (writes ? TAG_WRITE : TAG_READ) | (ULong)hart << 8 | (ULong)addr << 24 | (ULong)size << 56;
    /* (records of blocks have odd sizes) */
    __builtin_memcpy(trace_file.bytes + trace_file.count, &record, sizeof record);
    trace_file.count += ACCESS_BYTES;
}

/* Spells a number that stands for the one before it, in groups of seven bits. */
static inline UChar *put_step(UChar *at, UInt number, UInt *before)
{
    UInt step = number - *before, rest = step << 1 ^ (UInt)((Int)step >> 31);
    *before = number;
    while (rest >= 128) {
        *at++ = rest | 128;
        rest >>= 7;
    }
    *at++ = rest;
    return at;
}

static UInt last_addr, last_pc[MOST_HARTS];

static inline void put_sited(UInt hart, Bool writes, UInt addr, UInt size, UInt pc)
{
    UChar *at = trace_file.bytes + trace_file.count;
    *at++ = (writes ? TAG_WRITE_OF_SIZE : TAG_READ_OF_SIZE) | size;
    *at++ = hart;
    at = put_step(at, addr, &last_addr);
    at = put_step(at, pc, &last_pc[hart]);
    trace_file.count = at - trace_file.bytes;
}

/* One of 1, 2, 4 or 8 bytes that lies whole in a place, which is most of them. That of 8 is two:
   what is put behind one that isn't, doesn't count. */
static inline void put_whole(UInt hart, Bool writes, UInt place, UInt size, UInt pc)
{
    Bool two = size == 8;
    UInt piece = two ? 4 : size;
    if (trace_pcs) {
        put_sited(hart, writes, place, piece, pc);
        UInt other = (writes ? TAG_WRITE_OF_SIZE : TAG_READ_OF_SIZE) | 4 | hart << 8 |
                     8 << 16; /* 4 bytes farther, by the same instruction */
        __builtin_memcpy(trace_file.bytes + trace_file.count, &other, sizeof other);
        last_addr += two ? 4 : 0;
        trace_file.count += two ? 4 : 0;
    } else {
        put_plain(hart, writes, place, piece);
        put_plain(hart, writes, place + 4, 4);
        trace_file.count -= two ? 0 : ACCESS_BYTES;
    }
    trace_accesses += 1 + two;
    trace_whole += 1 + two;
}

/* The access of one aligned piece, unless the trace is filtered and that is redundant. */
static inline void put_piece(UInt hart, Bool writes, Addr addr, UInt place, UInt size, UInt pc)
{
    UInt *stamps = near_pages[addr / PAGE % 1024].stamps;
    if (trace_near && !filter_keeps(hart, writes, place, stamps + addr % PAGE / 4))
        return;
    if (trace_file.count + LONGEST_ACCESS > trace_room)
        trace_flush();
    if (trace_file.fd < 0)
        return;
    if (trace_pcs)
        put_sited(hart, writes, place, size, pc);
    else
        put_plain(hart, writes, place, size);
    trace_accesses++;
}

static __attribute__((noinline)) void put_pieces(UInt hart, Bool writes, Addr addr, UInt size,
                                                 UInt pc)
{
    while (size > 0) {
        UInt piece = addr % 4 == 0 && size >= 4 ? 4 : addr % 2 == 0 && size >= 2 ? 2 : 1;
        UInt place = place_of(addr);
        if (place == 0 || !trace_records)
            return;
        put_piece(hart, writes, addr, place, piece, pc);
        if (trace_file.fd < 0)
            return;
        if (++trace_whole == trace_most)
            trace_stop("most", "that many accesses were asked for");
        addr += piece;
        size -= piece;
    }
}

void trace_access(UInt hart, Bool writes, Addr addr, UInt size, UInt pc)
{
    if (hart >= MOST_HARTS) {
        trace_stop("threads", "more than 256 threads live at a time");
        return;
    }
    if (libraries_came)
        read_libraries();
    UInt near = addr / PAGE % 1024;
    Bool is_whole = size <= 8 && (size & (size - 1)) == 0 &&
                    (addr & ((size < 4 ? size : 4) - 1)) == 0 && addr % PAGE + size <= PAGE;
    Bool goes_on = trace_records && trace_near == 0 &&
                   (trace_most == 0 || trace_accesses + 2 < trace_most) &&
                   trace_file.count + 2 * LONGEST_ACCESS <= trace_room;
    if (is_whole && goes_on && near_pages[near].last == (addr | (PAGE - 1)))
        put_whole(hart, writes, near_pages[near].place + addr % PAGE, size, pc);
    else
        put_pieces(hart, writes, addr, size, pc);
}
