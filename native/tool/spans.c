/* Which parts of a run are recorded, where the call asks for a part: behind a time or a number of
   accesses, for a time, in windows, or while a signal has switched it on (native/predator-native).
   What isn't recorded runs as fast as under valgrind's tool that only translates; where accesses
   are waited for, its code counts them by blocks. */
#include "notes.h"

#include "parts.h"

ULong spans_skip, spans_skip_ms, spans_for_ms, spans_window, spans_every;
Int spans_switch = -1;
Bool spans_paused;

#define TICKS 20000000 /* between two looks at the clock, of the processor's: some milliseconds */

static Bool skips, has_gap, is_known; /* at the start; between two windows; recording has begun */
static UInt flips;                    /* so often was it switched */
static ULong began, window_end;
static Long countdown, waited; /* accesses until something is due, and what it was when last seen */

Bool spans_are_asked(void)
{
    return spans_skip || spans_skip_ms || spans_for_ms || spans_window || spans_paused || flips;
}

void spans_begin(void)
{
    began = VG_(read_millisecond_timer)();
    skips = spans_skip > 0 || spans_skip_ms > 0;
    waited = countdown = spans_skip;
    if (spans_switch >= 0)
        spans_switch = VG_(safe_fd)(spans_switch);
}

Bool spans_record(void) { return !skips && !has_gap && (flips % 2 == 1) == spans_paused; }

Bool spans_count(void) { return (skips && spans_skip) || has_gap; }

/* Recording goes on, or begins at a place that isn't the program's start. */
void spans_resume(void)
{
    if (!spans_are_asked())
        return;
    table_text("resume %llu\n", trace_accesses);
    filter_part();
    if (!is_known)
        began = VG_(read_millisecond_timer)();
    is_known = True;
    window_end = trace_whole + spans_window;
}

/* The call's end of a skip or a gap, by the accesses that the code has counted since the last look.
 */
static void look_at_accesses(Bool would_record)
{
    if (!spans_count())
        return;
    if (!would_record)
        countdown = waited;
    waited = countdown;
    if (countdown <= 0)
        skips = has_gap = False;
}

static void look_at_clock(void)
{
    static ULong last;
    ULong now = __builtin_ia32_rdtsc(), passed;
    if (now - last < TICKS)
        return;
    last = now;
    passed = VG_(read_millisecond_timer)() - began;
    if (skips && spans_skip_ms && passed >= spans_skip_ms)
        skips = False;
    if (is_known && spans_for_ms && passed >= spans_for_ms)
        trace_stop("for", "the time that was asked for is over");
    if (spans_switch >= 0)
        CALL(__NR_pread64, spans_switch, &flips, sizeof flips, 0);
}

void spans_look(Bool would_record)
{
    look_at_accesses(would_record);
    if (spans_skip_ms || spans_for_ms || spans_switch >= 0)
        look_at_clock();
    if (trace_records && spans_window && trace_whole >= window_end) {
        has_gap = True;
        waited = countdown = spans_every - spans_window;
    }
}

/* ---- Code that counts its accesses, and notes none ---- */

static UInt pieces_in(const IRSB *in, const IRStmt *it)
{
    switch (it->tag) {
    case Ist_WrTmp:
        return it->Ist.WrTmp.data->tag == Iex_Load
                   ? pieces_of(sizeofIRType(it->Ist.WrTmp.data->Iex.Load.ty))
                   : 0;
    case Ist_Store:
        return pieces_of(sizeofIRType(typeOfIRExpr(in->tyenv, it->Ist.Store.data)));
    case Ist_Dirty:
        return it->Ist.Dirty.details->mFx == Ifx_None ? 0 : pieces_of(it->Ist.Dirty.details->mSize);
    case Ist_LoadG:
    case Ist_StoreG:
    case Ist_CAS:
        return 1;
    default:
        return 0;
    }
}

static void count_pieces(IRSB *out, UInt *pieces)
{
    IRExpr *left;
    if (*pieces == 0)
        return;
    left = named(out, Ity_I64, IRExpr_Binop(Iop_Sub64, loaded(out, &countdown), number(*pieces)));
    addStmtToIRSB(out, IRStmt_Store(Iend_LE, number((Addr)&countdown), left));
    end_where(out, named(out, Ity_I1, IRExpr_Binop(Iop_CmpLE64S, left, number(0))));
    *pieces = 0;
}

IRSB *spans_code(IRSB *in)
{
    IRSB *out = deepCopyIRSBExceptStmts(in);
    UInt pieces = 0;
    Int it;
    for (it = 0; it < in->stmts_used; it++) {
        if (in->stmts[it]->tag == Ist_Exit)
            count_pieces(out, &pieces);
        addStmtToIRSB(out, in->stmts[it]);
        pieces += pieces_in(in, in->stmts[it]);
    }
    count_pieces(out, &pieces);
    return out;
}
