/* What native/tool/trace.c, objects.c and nameless.c do, for the tool and for the runtime of
 * native/lib. */
#ifndef PREDATOR_TRACE_H
#define PREDATOR_TRACE_H

#define MOST_HARTS 256

extern ULong trace_accesses; /* so many stand in the trace */
extern ULong trace_whole;    /* and so many were made: more where it is filtered */
extern ULong trace_turns;    /* so many turns have begun */
/* False where a file can't be written. Without a table's path it is that of the trace with
 * `.table`; a path /dev/fd/N is taken over. */
Bool trace_begin(const HChar *path, const HChar *table);
Bool trace_start(void); /* writes the first bytes; before them no process has written anything */
Bool trace_is_open(void);
Int trace_fd(Bool of_table); /* the descriptor of its file or of the table's, or -1 */
Bool trace_has(Int fd);      /* one of its files */
void trace_access(UInt hart, Bool writes, Addr addr, UInt size, UInt pc);
UInt trace_pc(Addr addr); /* the number of an instruction in the trace, whose row is written once */
void trace_thread(UInt hart, Addr stack, Addr own); /* a thread has begun, with these pointers to
                                                       its stack and to what it has for itself */
void trace_stack(UInt hart, Addr from, Addr to);    /* where a stack lies */
void trace_flush(void);
void trace_show(void); /* how far the recording is, on a terminal */
void trace_end(Bool by_exit, Int code);
void trace_stop(const HChar *word, const HChar *why); /* the trace ends here; the program goes on */
void trace_becomes(Bool another); /* the program is about to become another one, or did not */
void trace_leave(void);   /* in a child that was forked: nothing is written there any more */
void trace_library(void); /* a file was mapped that has symbols */
void trace_resume(void);  /* recording goes on */
void trace_block(ThreadId tid, Addr addr, SizeT size);
void trace_free(ThreadId tid, Addr addr);
void trace_revive(ThreadId tid, Addr addr); /* the last block that this thread freed lives on */
extern Bool trace_records;                  /* accesses are recorded now */
extern Bool trace_pcs;   /* each with its instruction; said before the trace begins */
extern UInt trace_near;  /* of a filtered trace its k, or 0: filter.h; said before it begins, too */
extern ULong trace_most; /* the trace ends after so many, or 0 */
extern ULong trace_max_bytes; /* its file and the table's take no more than so much, or 0 */

/* How much is free on the disk of a file, or NO_DISK where it is on none. */
#define NO_DISK (~0ULL)
ULong bytes_free(Int fd);

#endif
