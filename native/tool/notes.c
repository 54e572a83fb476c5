/* Translated code notes the accesses that it makes, and counts those of a turn.

   For a whole trace each access is noted in a buffer by a few instructions of the translated code
   itself: one word with its address, its size and whether it writes, and one with its instruction.
   What is in the buffer belongs to one thread, and is written to the trace before another one runs.
   For a filtered trace the code looks whether the access is redundant, and calls the tool where it
   isn't (looks.c).

   Before the code leaves a block it looks whether the turn's accesses are used up, and if so has
   valgrind believe that its own count of blocks is. */
#include "notes.h"

#define ADDRESS_BITS 48
#define SIZE_SHIFT   48
#define WRITES       (1UL << 63)

static UInt stride = 1; /* words of each access in the buffer */
static ULong *buffer, *noted, *limit,
    *most; /* the buffer, its next free word, the end of the turn, and where the buffer is full */

/* ---- Instructions, by their numbers from 1 on ---- */

typedef struct {
    Addr addr;
    UInt place; /* in the trace, once it was written */
} Instruction;

typedef struct {
    Addr addr;
    UInt number;
} Numbered;

static Instruction *instructions;
static UInt instruction_count, instruction_room;
static OSet *numbers;

UInt number_of(Addr addr)
{
    Numbered *it = VG_(OSetGen_Lookup)(numbers, &addr);
    if (it)
        return it->number;
    if (instruction_count + 1 >= instruction_room) {
        instruction_room = instruction_room ? 2 * instruction_room : 4096;
        instructions = VG_(realloc)("predator.instructions", instructions,
                                    instruction_room * sizeof *instructions);
    }
    it = VG_(OSetGen_AllocNode)(numbers, sizeof *it);
    it->addr = addr;
    it->number = ++instruction_count;
    VG_(OSetGen_Insert)(numbers, it);
    instructions[it->number] = (Instruction){addr, 0};
    return it->number;
}

UInt pc_of(ULong number)
{
    Instruction *it = &instructions[number];
    if (!it->place)
        it->place = trace_pc(it->addr);
    return it->place;
}

/* ---- What was noted ---- */

void notes_begin(ULong turn)
{
    ULong room = turn > SLACK ? turn : SLACK;
    numbers = VG_(OSetGen_Create)(0, NULL, VG_(malloc), "predator.numbers", VG_(free));
    if (trace_near) {
        looks_begin(room);
        return;
    }
    stride = trace_pcs ? 2 : 1;
    buffer = VG_(malloc)("predator.buffer", stride * (room + 2 * SLACK) * sizeof *buffer);
    noted = limit = buffer;
    most = buffer + stride * room;
}

void notes_write(ThreadId of)
{
    ULong *it;
    if (trace_near) {
        looks_write();
        return;
    }
    if (trace_records && of > 0)
        for (it = buffer; it < noted && trace_records; it += stride) {
            ULong word = *it;
            UInt pc = stride > 1 ? pc_of(it[1]) : 0;
            trace_access(of - 1, word >> 63, word & ((1UL << ADDRESS_BITS) - 1),
                         word >> SIZE_SHIFT & 0x7fff, pc);
        }
    limit -= noted - buffer;
    if (limit < buffer)
        limit = buffer;
    noted = buffer;
}

void notes_drop(void)
{
    if (trace_near)
        looks_drop();
    else
        noted = buffer;
}

void notes_turn(ThreadId of, ULong turn)
{
    if (trace_near)
        looks_turn(of, turn);
    else
        limit = turn ? noted + stride * turn : most;
}

void notes_forget(void) { looks_forget(); }

void notes_mapped(Addr addr, SizeT size) { looks_mapped(addr, size); }

Bool notes_turn_is_over(void) { return trace_near ? looks_turn_is_over() : noted >= limit; }

Bool notes_are_full(void) { return trace_near ? looks_are_full() : noted >= most; }

/* ---- The code that notes ---- */

IRExpr *number(ULong value) { return IRExpr_Const(IRConst_U64(value)); }

IRExpr *named(IRSB *out, IRType type, IRExpr *what)
{
    IRTemp temp = newIRTemp(out->tyenv, type);
    addStmtToIRSB(out, IRStmt_WrTmp(temp, what));
    return IRExpr_RdTmp(temp);
}

IRExpr *loaded(IRSB *out, void *from)
{
    return named(out, Ity_I64, IRExpr_Load(Iend_LE, Ity_I64, number((Addr)from)));
}

void end_where(IRSB *out, IRExpr *over)
{
    IRExpr *counter =
        named(out, Ity_I32, IRExpr_Get(offsetof(VexGuestArchState, host_EvC_COUNTER), Ity_I32));
    counter = named(out, Ity_I32, IRExpr_ITE(over, IRExpr_Const(IRConst_U32(0)), counter));
    addStmtToIRSB(out, IRStmt_Put(offsetof(VexGuestArchState, host_EvC_COUNTER), counter));
}

static void set_noted(Notes *it, IRExpr *value)
{
    IRSB *out = it->out;
    addStmtToIRSB(out, IRStmt_Store(Iend_LE, number((Addr)&noted), value));
    end_where(out, named(out, Ity_I1, IRExpr_Binop(Iop_CmpLE64U, loaded(out, &limit), value)));
    it->base = NULL;
    it->count = 0;
}

/* What was noted so far counts: before the block may be left. */
static void settle(Notes *it)
{
    if (trace_near)
        looks_settle(it);
    else if (it->count > 0)
        set_noted(it, named(it->out, Ity_I64,
                            IRExpr_Binop(Iop_Add64, it->base, number(8 * stride * it->count))));
}

static void store_word(Notes *it, UInt at, IRExpr *word)
{
    IRExpr *place =
        at == 0 ? it->base
                : named(it->out, Ity_I64, IRExpr_Binop(Iop_Add64, it->base, number(8 * at)));
    addStmtToIRSB(it->out, IRStmt_Store(Iend_LE, place, word));
}

static void note_word(Notes *it, IRExpr *word)
{
    if (it->base == NULL)
        it->base = loaded(it->out, &noted);
    store_word(it, stride * it->count, word);
    if (stride > 1) {
        if (it->number == 0)
            it->number = number_of(it->addr);
        store_word(it, stride * it->count + 1, number(it->number));
    }
    it->count++;
}

static ULong head(Bool writes, UInt size)
{
    return (writes ? WRITES : 0) | (ULong)size << SIZE_SHIFT;
}

static void note(Notes *it, Bool writes, IRExpr *addr, UInt size)
{
    if (trace_near)
        look(it, writes, addr, size);
    else
        note_word(
            it, named(it->out, Ity_I64, IRExpr_Binop(Iop_Or64, addr, number(head(writes, size)))));
}

/* An access that is made where `guard` holds. */
static void note_where(Notes *it, IRExpr *guard, Bool writes, IRExpr *addr, UInt size)
{
    IRExpr *from, *behind;
    if (trace_near) {
        look_where(it, guard, writes, addr, size);
        return;
    }
    settle(it);
    from = loaded(it->out, &noted);
    it->base = from;
    note(it, writes, addr, size);
    behind = named(it->out, Ity_I64, IRExpr_Binop(Iop_Add64, from, number(8 * stride)));
    set_noted(it, named(it->out, Ity_I64, IRExpr_ITE(guard, behind, from)));
}

/* A compare-and-swap is one write where it found what it expected, and else a read. */
static void note_swap(Notes *it, const IRCAS *swap)
{
    static const IROp equals[4] = {Iop_CasCmpEQ8, Iop_CasCmpEQ16, Iop_CasCmpEQ32, Iop_CasCmpEQ64};
    IRType type = typeOfIRExpr(it->out->tyenv, swap->dataLo);
    UInt size = sizeofIRType(type), rank = size == 8 ? 3 : size / 2;
    IRExpr *same =
        named(it->out, Ity_I1, IRExpr_Binop(equals[rank], IRExpr_RdTmp(swap->oldLo), swap->expdLo));
    if (swap->dataHi) {
        IRExpr *high = named(it->out, Ity_I1,
                             IRExpr_Binop(equals[rank], IRExpr_RdTmp(swap->oldHi), swap->expdHi));
        IRExpr *both = named(it->out, Ity_I64, IRExpr_Unop(Iop_1Uto64, high));
        IRExpr *low = named(it->out, Ity_I64, IRExpr_Unop(Iop_1Uto64, same));
        both = named(it->out, Ity_I64, IRExpr_Binop(Iop_And64, both, low));
        same = named(it->out, Ity_I1, IRExpr_Unop(Iop_64to1, both));
        size *= 2;
    }
    if (trace_near) {
        look_swap(it, same, swap->addr, size);
        return;
    }
    IRExpr *kind = named(it->out, Ity_I64,
                         IRExpr_ITE(same, number(head(True, size)), number(head(False, size))));
    note_word(it, named(it->out, Ity_I64, IRExpr_Binop(Iop_Or64, swap->addr, kind)));
}

static void note_helper(Notes *it, const IRDirty *call)
{
    if (call->mFx == Ifx_None)
        return;
    if (call->mFx == Ifx_Read || call->mFx == Ifx_Modify)
        note_where(it, call->guard, False, call->mAddr, call->mSize);
    if (call->mFx == Ifx_Write || call->mFx == Ifx_Modify)
        note_where(it, call->guard, True, call->mAddr, call->mSize);
}

/* The address of the compare-and-swap of the instruction that begins at a statement, or none: an
   atomic operation is translated into a load and a compare-and-swap, and is one access. */
static const IRExpr *swap_of(const IRSB *in, Int from)
{
    Int it;
    for (it = from + 1; it < in->stmts_used && in->stmts[it]->tag != Ist_IMark; it++)
        if (in->stmts[it]->tag == Ist_CAS)
            return in->stmts[it]->Ist.CAS.details->addr;
    return NULL;
}

IRSB *notes_code(IRSB *in)
{
    Notes notes = {.out = deepCopyIRSBExceptStmts(in)};
    const IRExpr *swap = NULL;
    Int it = 0;
    while (it < in->stmts_used && in->stmts[it]->tag != Ist_IMark)
        addStmtToIRSB(notes.out, in->stmts[it++]);
    for (; it < in->stmts_used; it++) {
        IRStmt *one = in->stmts[it];
        if (one->tag == Ist_IMark) {
            swap = swap_of(in, it);
            notes.addr = one->Ist.IMark.addr;
            notes.number = 0;
        }
        if (one->tag == Ist_Exit)
            settle(&notes);
        addStmtToIRSB(notes.out, one);
        switch (one->tag) {
        case Ist_WrTmp: {
            const IRExpr *data = one->Ist.WrTmp.data;
            if (data->tag == Iex_Load && !(swap && eqIRAtom(swap, data->Iex.Load.addr)))
                note(&notes, False, data->Iex.Load.addr, sizeofIRType(data->Iex.Load.ty));
            break;
        }
        case Ist_Store:
            note(&notes, True, one->Ist.Store.addr,
                 sizeofIRType(typeOfIRExpr(in->tyenv, one->Ist.Store.data)));
            break;
        case Ist_LoadG: {
            IRType whole, read;
            typeOfIRLoadGOp(one->Ist.LoadG.details->cvt, &whole, &read);
            note_where(&notes, one->Ist.LoadG.details->guard, False, one->Ist.LoadG.details->addr,
                       sizeofIRType(read));
            break;
        }
        case Ist_StoreG:
            note_where(&notes, one->Ist.StoreG.details->guard, True, one->Ist.StoreG.details->addr,
                       sizeofIRType(typeOfIRExpr(in->tyenv, one->Ist.StoreG.details->data)));
            break;
        case Ist_CAS:
            note_swap(&notes, one->Ist.CAS.details);
            break;
        case Ist_Dirty:
            note_helper(&notes, one->Ist.Dirty.details);
            break;
        default:
            break;
        }
    }
    settle(&notes);
    looks_end(&notes);
    return notes.out;
}
