/* The translated code of a filtered trace. Before an access is given to the tool, the code itself
   looks whether it is redundant: whether the stamps of its words are those that the running thread
   would have left. That is judged as filter.c does, but only where the access lies in one region
   and at an address that is a multiple of its words; each other one is given to the tool.

   An instruction is numbered in the trace at its first access, which may be redundant. So the
   accesses of a block of code are all given to the tool until the block has run once to its end.

   The turn's accesses are counted by blocks, and with them the words that they touch, so that the
   trace can say how many accesses were made. */
#include "notes.h"

#include "parts.h"

struct Site {
    UInt number; /* of the instruction */
    UInt size, pieces;
    Bool writes, is_last; /* of its block, but for those that not each run of the block makes */
    ULong *unseen;        /* its block's */
};

#define NOBODY DOUBLED(NO_THREAD)

static ULong thread =
    NOBODY; /* what the running thread leaves in a stamp where it writes, doubled */
#define ONE (1L << 32)

static Long budget; /* times ONE, the accesses that the turn still has; and below, the pieces of
                       all accesses that the code has counted */
static UInt counted, called;   /* of those pieces, how many were looked at; and the pieces of the
                                  accesses that were given to the tool since then */
static Long left, batch, most; /* accesses: those that the turn had, those since the last write, and
                                  how many these may be */
static Bool skipped, is_blind;

/* ---- What code keeps, until all code is translated anew ---- */

#define ROOM       1024
#define MOST_ROOMS 65536

typedef struct {
    UChar *rooms[MOST_ROOMS];
    UInt used, size;
} Pool;

static Pool sites = {.size = sizeof(Site)}, flags = {.size = sizeof(ULong)};

static void *take(Pool *it)
{
    UInt at = it->used++ / ROOM;
    tl_assert(at < MOST_ROOMS);
    if (!it->rooms[at])
        it->rooms[at] = VG_(malloc)("predator.looks", ROOM * it->size);
    return it->rooms[at] + (it->used - 1) % ROOM * it->size;
}

void looks_forget(void) { sites.used = flags.used = 0; }

/* ---- What is given to the tool ---- */

/* The blocks of code that ended since the last call made accesses that weren't given to the tool.
 */
static void count_skipped(void)
{
    UInt pieces = budget;
    if (pieces != counted && trace_records && pieces - counted > called) {
        trace_whole += pieces - counted - called;
        skipped = True;
    }
    if (pieces != counted)
        called = 0;
    counted = pieces;
}

static VG_REGPARM(2) void on_access(Addr addr, const Site *it)
{
    count_skipped();
    called += it->pieces;
    if (!trace_records)
        return;
    if (it->is_last)
        *it->unseen = 0;
    trace_access(VG_(get_running_tid)() - 1, it->writes, addr, it->size, pc_of(it->number));
}

/* (where a fault has ended the last block, its accesses weren't counted, and those that were given
 * to the tool are all that is known of) */
static void sync(void)
{
    Long now = budget >> 32;
    count_skipped();
    called = counted = 0;
    batch += left - now;
    left = now;
    budget = left * ONE;
}

void looks_begin(ULong room) { most = room; }

void looks_write(void)
{
    sync();
    /* (a whole trace has them before the first access) */
    if (skipped && trace_records && libraries_came)
        read_libraries();
    skipped = False;
    batch = 0;
    left = left > 0 ? left : 0;
    budget = left * ONE;
}

void looks_drop(void)
{
    sync();
    batch = 0;
}

/* So many accesses are let go by at most until the turn's end is seen: behind the last one of
   `trace_most` none may be. */
#define PIECES_OF(turn) (8 * ((turn) + 4096))

void looks_turn(ThreadId of, ULong turn)
{
    Bool is_near_end = trace_most > 0 && trace_whole + PIECES_OF(turn) >= trace_most;
    sync();
    left = turn ? (Long)turn : most - batch;
    budget = left * ONE;
    thread = turn && 0 < of && of <= MOST_HARTS && !is_near_end && !is_blind
                 ? DOUBLED(of * STAMP_THREAD | STAMP_WRITES)
                 : NOBODY;
}

Bool looks_turn_is_over(void)
{
    sync();
    return left <= 0;
}

Bool looks_are_full(void)
{
    sync();
    return batch >= most;
}

void looks_mapped(Addr addr, SizeT size)
{
    if (addr + size > 1UL << (20 + CHUNK_BITS)) { /* (valgrind gives a program none of these) */
        is_blind = True;
        thread = NOBODY;
    }
}

/* ---- The code ---- */

static Site *new_site(Notes *it, Bool writes, UInt size)
{
    Site *site = take(&sites);
    if (!it->number)
        it->number = number_of(it->addr);
    if (!it->unseen) {
        it->unseen = take(&flags);
        *it->unseen = NOBODY;
    }
    *site = (Site){it->number, size, pieces_of(size), writes, False, it->unseen};
    return site;
}

static void call_where(Notes *it, IRExpr *guard, IRExpr *addr, IRExpr *site)
{
    IRDirty *call = unsafeIRDirty_0_N(2, "on_access", VG_(fnptr_to_fnentry)(on_access),
                                      mkIRExprVec_2(addr, site));
    if (guard)
        call->guard = guard;
    addStmtToIRSB(it->out, IRStmt_Dirty(call));
}

static void count_in(Notes *it, IRExpr *step)
{
    IRExpr *now = named(it->out, Ity_I64, IRExpr_Binop(Iop_Add64, loaded(it->out, &budget), step));
    addStmtToIRSB(it->out, IRStmt_Store(Iend_LE, number((Addr)&budget), now));
    end_where(it->out, named(it->out, Ity_I1, IRExpr_Binop(Iop_CmpLT64S, now, number(ONE))));
}

static ULong step_of(UInt accesses, UInt pieces) { return pieces - (ULong)accesses * ONE; }

void looks_settle(Notes *it)
{
    if (it->count > 0)
        count_in(it, number(step_of(it->count, it->pieces)));
    it->count = it->pieces = 0;
}

static IRExpr *binary(Notes *it, IROp op, IRExpr *one, IRExpr *other)
{
    return named(it->out, op == Iop_And32 || op == Iop_Or32 || op == Iop_Xor32 ? Ity_I32 : Ity_I64,
                 IRExpr_Binop(op, one, other));
}

static IRExpr *shifted(Notes *it, IROp op, IRExpr *value, UInt bits)
{
    return bits ? named(it->out, Ity_I64, IRExpr_Binop(op, value, IRExpr_Const(IRConst_U8(bits))))
                : value;
}

static IRExpr *stamp_at(Notes *it, IRType type, IRExpr *chunk, IRExpr *at, UInt behind)
{
    IRExpr *from = binary(it, Iop_Add64, chunk, at);
    if (behind)
        from = binary(it, Iop_Add64, from, number(behind));
    return named(it->out, type, IRExpr_Load(Iend_LE, type, from));
}

/* What isn't zero where an access of 4 bytes or less isn't redundant, or not aligned. */
static IRExpr *differs_in_word(Notes *it, Bool writes, IRExpr *addr, UInt size, IRExpr *chunk,
                               IRExpr *at, IRExpr *own)
{
    IRExpr *word = named(it->out, Ity_I32, IRExpr_Unop(Iop_64to32, own));
    IRExpr *differs = binary(it, Iop_Xor32, stamp_at(it, Ity_I32, chunk, at, 0), word);
    if (!writes)
        differs = binary(it, Iop_And32, differs, IRExpr_Const(IRConst_U32(~STAMP_WRITES)));
    if (size > 1) {
        IRExpr *low = named(it->out, Ity_I32, IRExpr_Unop(Iop_64to32, addr));
        low = binary(it, Iop_And32, low, IRExpr_Const(IRConst_U32(size - 1)));
        differs = binary(it, Iop_Or32, differs, low);
    }
    return named(it->out, Ity_I1, IRExpr_Binop(Iop_CmpNE32, differs, IRExpr_Const(IRConst_U32(0))));
}

/* The same of one of 8, 16 or 32 bytes, which may also lie in two regions. */
static IRExpr *differs_in_words(Notes *it, Bool writes, IRExpr *addr, UInt size, IRExpr *chunk,
                                IRExpr *at, IRExpr *own)
{
    IRExpr *differs = binary(it, Iop_And64, addr, number(size == 8 ? 7 : 3));
    UInt behind;
    if (size > 8) {
        IRExpr *end = binary(it, Iop_Add64, addr, number(size - 1));
        end = shifted(it, Iop_Shr64, binary(it, Iop_Xor64, addr, end), near_bits);
        differs = binary(it, Iop_Or64, differs, end);
    }
    for (behind = 0; behind < size; behind += 8) {
        IRExpr *two = binary(it, Iop_Xor64, stamp_at(it, Ity_I64, chunk, at, behind), own);
        if (!writes)
            two = binary(it, Iop_And64, two, number(~DOUBLED(STAMP_WRITES)));
        differs = binary(it, Iop_Or64, differs, two);
    }
    return named(it->out, Ity_I1, IRExpr_Binop(Iop_CmpNE64, differs, number(0)));
}

/* Whether an access may not be redundant. */
static IRExpr *differs_at(Notes *it, Bool writes, IRExpr *addr, UInt size)
{
    IRExpr *chunk =
        binary(it, Iop_And64, shifted(it, Iop_Shr64, addr, 20), number((1UL << CHUNK_BITS) - 1));
    chunk = binary(it, Iop_Add64, number((Addr)chunks_at), shifted(it, Iop_Shl64, chunk, 3));
    chunk = named(it->out, Ity_I64, IRExpr_Load(Iend_LE, Ity_I64, chunk));
    IRExpr *at = binary(it, Iop_And64, addr, number(REGION - 4));
    IRExpr *own = shifted(it, Iop_Shl64, shifted(it, Iop_Shr64, at, near_bits), 3);
    own =
        binary(it, Iop_Add64, binary(it, Iop_Add64, chunk, own), number(offsetof(Chunk, numbers)));
    own = named(it->out, Ity_I64, IRExpr_Load(Iend_LE, Ity_I64, own));
    own = binary(it, Iop_Or64, own, it->thread);
    return size <= 4 ? differs_in_word(it, writes, addr, size, chunk, at, own)
                     : differs_in_words(it, writes, addr, size, chunk, at, own);
}

static IRExpr *look_at(Notes *it, Bool writes, IRExpr *addr, UInt size)
{
    if (size > 32 || (size & (size - 1)) != 0)
        return NULL;
    if (!it->thread)
        it->thread = binary(it, Iop_Or64, loaded(it->out, &thread), loaded(it->out, it->unseen));
    return differs_at(it, writes, addr, size);
}

void look(Notes *it, Bool writes, IRExpr *addr, UInt size)
{
    it->last = new_site(it, writes, size);
    call_where(it, look_at(it, writes, addr, size), addr, number((Addr)it->last));
    it->count++;
    it->pieces += it->last->pieces;
}

void look_where(Notes *it, IRExpr *guard, Bool writes, IRExpr *addr, UInt size)
{
    Site *site = new_site(it, writes, size);
    looks_settle(it);
    call_where(it, guard, addr, number((Addr)site));
    count_in(it, named(it->out, Ity_I64,
                       IRExpr_ITE(guard, number(step_of(1, site->pieces)), number(0))));
}

/* One that writes where `same` holds, and else reads. */
void look_swap(Notes *it, IRExpr *same, IRExpr *addr, UInt size)
{
    Site *reads = new_site(it, False, size), *writes = new_site(it, True, size);
    IRExpr *site =
        named(it->out, Ity_I64, IRExpr_ITE(same, number((Addr)writes), number((Addr)reads)));
    call_where(it, look_at(it, True, addr, size), addr, site);
    it->count++;
    it->pieces += writes->pieces;
}

void looks_end(Notes *it)
{
    if (it->last)
        it->last->is_last = True;
}
