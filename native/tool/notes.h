/* What notes.c, which has translated code note its accesses, and looks.c, which does so for a
   filtered trace, have of each other. */
#ifndef PREDATOR_NOTES_H
#define PREDATOR_NOTES_H

#include "tool.h"

#define SLACK 65536 /* accesses: more than one block of code can note */

typedef struct Site Site;

/* A block while it is translated. */
typedef struct {
    IRSB *out;
    IRExpr *base; /* the next free word, as it stood when the first of `count` accesses was noted */
    UInt count;   /* of accesses since the turn's were last counted */
    UInt pieces;  /* in which so many aligned words, or parts of one, are touched */
    Addr addr;    /* the instruction, and its number once that was asked for */
    UInt number;
    IRExpr *thread; /* of looks.c: what stands in stamps of the thread that runs */
    ULong *unseen;
    Site *last;
} Notes;

IRExpr *number(ULong value);
IRExpr *named(IRSB *out, IRType type, IRExpr *what);
IRExpr *loaded(IRSB *out, void *from);
void end_where(IRSB *out, IRExpr *over); /* the turn ends behind this block where `over` holds */

/* So many words, or parts of one, are touched by an aligned access. */
static inline UInt pieces_of(UInt size) { return size / 4 + (size & 1) + (size >> 1 & 1); }

UInt number_of(Addr addr); /* an instruction's, from 1 on */
UInt pc_of(ULong number);  /* what it is in the trace */

/* looks.c: what stands in notes.c's place for a filtered trace. */
void looks_begin(ULong room);
void looks_write(void);
void looks_drop(void);
void looks_turn(ThreadId of, ULong turn);
Bool looks_turn_is_over(void);
Bool looks_are_full(void);
void looks_settle(Notes *);
void look(Notes *, Bool writes, IRExpr *addr, UInt size);
void look_where(Notes *, IRExpr *guard, Bool writes, IRExpr *addr, UInt size);
void look_swap(Notes *, IRExpr *same, IRExpr *addr, UInt size);
void looks_end(Notes *);
void looks_forget(void);                  /* all code is translated anew */
void looks_mapped(Addr addr, SizeT size); /* the program has memory there */

#endif
