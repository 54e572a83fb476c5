/* What the parts of the tool share. The tool runs inside valgrind, with valgrind's own small
 * library and no C library. */
#ifndef PREDATOR_TOOL_H
#define PREDATOR_TOOL_H

#include "pub_tool_basics.h"
#include "pub_tool_vki.h"
#include "pub_tool_vkiscnums.h"
#include "pub_tool_threadstate.h"
#include "pub_tool_libcassert.h"
#include "pub_tool_libcbase.h"
#include "pub_tool_libcfile.h"
#include "pub_tool_libcprint.h"
#include "pub_tool_libcproc.h"
#include "pub_tool_libcsignal.h"
#include "pub_tool_mallocfree.h"
#include "pub_tool_options.h"
#include "pub_tool_debuginfo.h"
#include "pub_tool_aspacemgr.h"
#include "pub_tool_clientstate.h"
#include "pub_tool_stacktrace.h"
#include "pub_tool_machine.h"
#include "pub_tool_oset.h"
#include "pub_tool_guest.h"
#include "pub_tool_tooliface.h"

/* In valgrind's library, and in none of its headers. native/build looks at the version that they
 * belong to. */
extern SysRes VG_(do_syscall)(UWord number, UWord, UWord, UWord, UWord, UWord, UWord, UWord, UWord);
extern Int VG_(safe_fd)(Int fd);
extern Bool VG_(clo_read_inline_info);
extern const HChar *VG_(strerror)(UWord error);
extern Int VG_(sigemptyset)(vki_sigset_t *);
extern Int VG_(sigaddset)(vki_sigset_t *, Int signal);
extern void VG_(discard_translations)(Addr start, ULong size, const HChar *who);
extern Int VG_(DebugInfo_syms_howmany)(const DebugInfo *);
extern void VG_(DebugInfo_syms_getidx)(const DebugInfo *, Int, Addr *addr, UInt *size,
                                       const HChar **name, const HChar ***others, Bool *is_text,
                                       Bool *is_ifunc, Bool *is_global);
typedef struct {
    ThreadId tid;
    UInt status;
} ThreadHead; /* how each entry of valgrind's table of threads begins */
extern ThreadHead *VG_(get_ThreadState)(ThreadId);
extern ThreadId VG_(lwpid_to_vgtid)(Int lwp);
extern Addr VG_(brk_base), VG_(brk_limit);
extern const HChar *VG_(name_of_launcher);
enum { STATUS_RUNS = 2, STATUS_IN_CALL = 3, STATUS_YIELDS = 4 };

/* The mapping that an address lies in, if there is one: where it begins and ends, and the path of
 * its file, `[heap]` or none. */
static inline Bool mapping_of(Addr addr, Bool anew, Addr *from, Addr *to, const HChar **path)
{
    const NSegment *it = VG_(am_find_nsegment)(addr);
    if (!it)
        return False;
    *from = it->start;
    *to = it->end + 1;
    *path = VG_(brk_base) <= addr && addr < VG_(brk_limit) ? "[heap]" : VG_(am_get_filename)(it);
    return True;
}
static inline const HChar *mapped_file(Addr addr)
{
    Addr from, to;
    const HChar *path;
    return mapping_of(addr, False, &from, &to, &path) ? path : NULL;
}
#define MAPPED_FILE(addr) mapped_file(addr)

/* Numbers of Linux that valgrind's headers don't name. */
enum { SCHED_BATCH = 3, ETIMEDOUT = 110, PR_SET_PDEATHSIG = 1, VKI_O_NOFOLLOW = 0400000 };

#define CALL(number, a, b, c, d)                                                                   \
    VG_(do_syscall)(number, (UWord)(a), (UWord)(b), (UWord)(c), (UWord)(d), 0, 0, 0, 0)

/* Pages that take no memory until they are written, or none. */
enum { MADV_NOHUGEPAGE = 15 };
static inline void *empty_memory(SizeT size)
{
    void *it = VG_(am_shadow_alloc)(size);
    if (it)
        CALL(__NR_madvise, it, size, MADV_NOHUGEPAGE, 0);
    return it;
}
#define EMPTY_MEMORY(size) empty_memory(size)

/* More threads than a trace has harts, so that the tool can say so and the program go on. */
#define MOST_THREADS 2000

/* turns.c: who runs, in what order. */
typedef enum {
    CALL_OTHER,  /* may take its time */
    CALL_WAITS,  /* waits until another thread wakes it */
    CALL_SHARES, /* the same, or another program does */
    CALL_YIELDS, /* comes back at once, and gives the turn away */
    CALL_KEEPS   /* comes back at once, and keeps the turn */
} Call;
void turns_call(ThreadId tid, Call call); /* what the call is that a thread is about to make */
void turns_woke(Int count);               /* so many of those that wait come back */
void turns_unwoken(ThreadId tid);         /* one that waited comes back by itself */
void turns_leaves(Addr word);    /* a thread ends, and the system clears a word once it is gone */
void turns_expect(ThreadId tid); /* a thread is about to exist: the turn is kept for it */
void turns_forget(ThreadId tid);

/* calls.c: what a call of the system waits for. */
void calls_create(ThreadId parent, ThreadId child);
void calls_exit(ThreadId tid);
void calls_forked(ThreadId tid); /* no other thread is there any more */
void calls_before(ThreadId tid, UInt call, const UWord *words);
void calls_after(ThreadId tid, UInt call, const UWord *words, SysRes result);

/* processor.c: the one processor that all threads share. */
void processor_take(void);      /* from now on, if not already */
void processor_leave(void);     /* the program may use all it had, until a call fails */
void processor_give_back(void); /* the same for good, in a child that was forked */
void processor_after_call(UInt call, const UWord *words, SysRes result);
extern Bool processor_has_priorities; /* a thread may have a real-time priority */

/* core.c: what valgrind itself can't do for the program, or does otherwise. */
const HChar *program_path(void);
void core_before_call(UInt call, const UWord *words);
void core_after_call(UInt call, const UWord *words, SysRes result);
void core_unknown_code(
    const IRSB *block); /* says where one ends in code that valgrind doesn't know */

/* ticks.c: the processor's counter of time. */
IRStmt *ticks_instead(
    IRStmt *it); /* a statement that reads the counter reads one of ours; any other stays */
void ticks_pass(UInt call); /* a call has come back */

/* child.c: which process is recorded, where it isn't the program's own. */
extern Int child_token, child_root; /* a pipe's descriptor, or -1; and the program's own process, or
                                       0 where this is it */
void child_begin(void);
Bool child_waits(void);   /* whether this process may not be recorded, or not yet */
Bool child_takes(void);   /* whether it is recorded, now that there is something to record */
Bool child_follows(void); /* whether one that was forked may be */
void child_becomes(Bool another); /* the process is about to become another program, or did not */

#include "trace.h"

/* tool.c: what the running thread has noted goes to the trace. */
void write_noted(void);

/* notes.c: how code notes its accesses, and what it has noted. */
void notes_begin(ULong quantum);
IRSB *notes_code(IRSB *block);
void notes_forget(void); /* all code is translated anew */
void notes_mapped(Addr addr, SizeT size);
void notes_write(ThreadId of); /* what that thread has noted goes to the trace, if it records */
void notes_drop(void);
void notes_turn(ThreadId of, ULong turn); /* it has so many accesses, or as many as there is room */
Bool notes_turn_is_over(void);
Bool notes_are_full(void);

/* spans.c: which parts of a run are recorded. */
extern ULong spans_skip, spans_skip_ms, spans_for_ms, spans_window, spans_every;
extern Int spans_switch; /* a file with the number of times that it was switched, or -1 */
extern Bool spans_paused;
void spans_begin(void);
Bool spans_are_asked(void);
Bool spans_record(void);            /* now is such a part */
Bool spans_count(void);             /* or it comes behind some accesses */
void spans_look(Bool would_record); /* whether that has changed */
void spans_resume(void);            /* recording begins or goes on */
IRSB *spans_code(IRSB *block);      /* with its accesses counted */

void stack_begins(ThreadId tid); /* nameless.c: a thread is about to run for the first time */

#endif
