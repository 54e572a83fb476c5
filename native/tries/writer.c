/* Drives what writes a trace, as the runtime does, with made-up harts, accesses and blocks (native/sanitize.sh):

       writer TRACE SEED STEPS [pcs | K]   ends by exit with code 7, or where all regions have their places; with instructions, or filtered by
                                           regions of 2^K bytes, few harts touch few blocks */
#include "../lib/compat.h"

#include <stdlib.h>

__typeof__(syscall) *own_syscall = syscall;

static ULong drawn;
static UInt draw(UInt below)
{
    drawn = drawn * 6364136223846793005UL + 1442695040888963407UL;
    return (UInt)(drawn >> 33) % below;
}

/* Where a block is made: in functions of this program, or where there is none. */
UInt predator_get_StackTrace(ThreadId tid, Addr *calls, UInt most, Addr *sps, Addr *fps, Word delta)
{
    const Addr from[] = {(Addr)predator_get_StackTrace, (Addr)draw + 1, 0x7fffffffffffUL, 0};
    UInt it;
    for (it = 0; it < most && it < 1 + draw(5); it++)
        calls[it] = from[draw(4)];
    return it;
}

/* An address: mostly in few regions, near their ends too. */
static Addr address(void)
{
    Addr region = draw(50) ? 0x7f0000000000UL + draw(6) * 0x100000UL : (Addr)draw(6000) << 20;
    return region + (draw(4) ? draw(1 << 20) : 0x100000UL - 1 - draw(80));
}

/* The blocks have places that don't overlap: most lie side by side, and the last ten have a region and more. */
#define BLOCKS 500
#define LARGE 10
static Addr place(UInt which) { return which < BLOCKS - LARGE ? 0x7f0000000000UL + which * 10240UL : 0x7e0000000000UL + ((Addr)which << 30); }
static SizeT size(UInt which) { return which < BLOCKS - LARGE ? 1 + draw(10240) : 1 + draw(1 << 30); }

int main(int count, char **words)
{
    trace_pcs = count == 5;
    trace_near = trace_pcs ? strtoul(words[4], NULL, 10) : 0;
    if ((count != 4 && count != 5) || !trace_begin(words[1], NULL) || !trace_start())
        return 1;
    drawn = strtoul(words[2], NULL, 10);
    for (long left = strtol(words[3], NULL, 10); left > 0 && trace_is_open(); left--) {
        UInt hart = draw(trace_pcs ? 3 : MOST_HARTS), which = draw(trace_pcs && draw(2) ? 4 : BLOCKS);
        switch (draw(20)) {
        case 0:
            trace_block(1 + hart, place(which), size(which));
            break;
        case 1:
            trace_free(1 + hart, place(which));
            if (draw(4) == 0)
                trace_revive(1 + hart, place(which));
            break;
        case 2:
            if (draw(50) == 0)
                trace_library();
            if (draw(50) == 0)
                trace_flush();
            trace_records = draw(8) != 0;
            if (trace_records)
                trace_resume();
            break;
        default:
            trace_access(hart, draw(2), draw(3) ? place(which) + draw(64) : address(), 1 + draw(64), trace_pcs ? trace_pc((Addr)draw + drawn % 20000) : 0);
        }
    }
    trace_end(True, 7);
    return 0;
}
