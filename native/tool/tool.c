/* The tool: which accesses of a thread are recorded, and where its turn ends. */
#include "tool.h"

#include "requests.h"

static ULong quantum = 100;
static const HChar *trace_path, *table_path;
static Bool records_all, marked_only;

static ThreadId noted_of; /* the thread whose accesses were noted */
static Bool turn_is_over;
static Bool begins[MOST_THREADS + 1]; /* threads that haven't run yet */
/* What code does that is translated now. */
static enum { RUNS, COUNTS, NOTES } code;
static UInt live, started; /* threads, and calls of PREDATOR_START without one of PREDATOR_STOP */
static Int exit_code = -1;
static Bool has_preload, had_threads;

/* ---- Recording ---- */

void write_noted(void) { notes_write(noted_of); }

static void begin_turn(void)
{
    notes_turn(noted_of, trace_records ? quantum : 0);
    trace_turns += trace_records;
    turn_is_over = False;
}

#define TICKS 100000000 /* between two looks at the terminal, of the processor's */

static void show_progress(void)
{
    static ULong last;
    ULong now = __builtin_ia32_rdtsc();
    if (now - last < TICKS)
        return;
    last = now;
    trace_show();
}

static void translate(UInt does)
{
    if (code == does)
        return;
    code = does;
    notes_forget();
    VG_(discard_translations)(4096, ~0UL - 8191, "predator");
}

/* Whether this is the process that is recorded, from now on. */
static Bool is_taken(void)
{
    if (!child_takes())
        return False;
    processor_take();
    return True;
}

/* Whether accesses are recorded now, but for the parts that the call asks for. */
static Bool would_record(void)
{
    return trace_is_open() && (marked_only ? started > 0 : records_all || live >= 2);
}

static void judge_recording(void)
{
    Bool records = would_record() && spans_record();
    if (trace_is_open() && !spans_record()) /* (else it is to go on soon) */
        translate(spans_count() ? COUNTS : RUNS);
    if (records == trace_records || (records && child_waits() && !is_taken()))
        return;
    write_noted();
    if (records)
        translate(NOTES);
    trace_records = records;
    if (records) {
        trace_resume();
        spans_resume();
    }
    begin_turn();
}

static void on_start(ThreadId tid, ULong blocks)
{
    if (noted_of != tid || begins[tid])
        write_noted();
    if (begins[tid])
        stack_begins(tid);
    begins[tid] = False;
    if (noted_of != tid) {
        noted_of = tid;
        begin_turn();
    } else if (turn_is_over) {
        begin_turn();
    }
    if (spans_are_asked() || spans_switch >= 0) {
        if (spans_window)
            write_noted();
        spans_look(would_record());
        judge_recording();
    }
    if (trace_records)
        show_progress();
    if (tid > MOST_HARTS && trace_records)
        trace_stop("threads", "more than 256 threads live at a time");
    if (code != RUNS && !trace_is_open()) { /* nothing is written any more: the program goes on as
                                               fast as valgrind can */
        translate(RUNS);
        begin_turn();
    }
}

static void on_stop(ThreadId tid, ULong blocks)
{
    if (notes_turn_is_over())
        turn_is_over = True;
    if (notes_are_full())
        write_noted();
}

static Addr own_text;
static SizeT own_size;

/* The wrappers of native/tool/preload.c are no part of the program. */
static Bool is_own(Addr addr)
{
    return own_size > 0 && own_text <= addr && addr < own_text + own_size;
}

static IRSB *instrument(VgCallbackClosure *closure, IRSB *in, const VexGuestLayout *layout,
                        const VexGuestExtents *extents, const VexArchInfo *host, IRType guest_word,
                        IRType host_word)
{
    Int it;
    for (it = 0; it < in->stmts_used; it++)
        in->stmts[it] = ticks_instead(in->stmts[it]);
    core_unknown_code(in);
    if (code == RUNS || is_own(closure->readdr))
        return in;
    return code == NOTES ? notes_code(in) : spans_code(in);
}

/* ---- What happens beside ---- */

static void on_create(ThreadId parent, ThreadId child)
{
    turns_expect(child);
    begins[child] = True;
    calls_create(parent, child);
    live++;
    had_threads = had_threads || live >= 2;
    judge_recording();
}

static void on_exit(ThreadId tid)
{
    turns_forget(tid);
    calls_exit(tid);
    live--;
    judge_recording();
}

static Bool on_request(ThreadId tid, UWord *words, UWord *result)
{
    if (!VG_IS_TOOL_USERREQ('P', 'D', words[0]))
        return False;
    *result = 0;
    write_noted();
    switch (words[0]) {
    case PREDATOR_REQUEST_START:
        started++;
        judge_recording();
        break;
    case PREDATOR_REQUEST_STOP:
        if (started > 0)
            started--;
        judge_recording();
        break;
    case PREDATOR_REQUEST_BLOCK:
        trace_block(tid, words[1], words[2]);
        break;
    case PREDATOR_REQUEST_FREE:
        trace_free(tid, words[1]);
        break;
    case PREDATOR_REQUEST_REVIVE:
        trace_revive(tid, words[1]);
        break;
    case PREDATOR_REQUEST_HERE:
        has_preload = True;
        break;
    default:
        return False;
    }
    return True;
}

static void on_map(Addr addr, SizeT size, Bool reads, Bool writes, Bool runs, ULong handle)
{
    notes_mapped(addr, size);
    if (handle == 0)
        return;
    trace_library();
    if (own_size == 0) {
        const DebugInfo *info;
        for (info = VG_(next_DebugInfo)(NULL); info; info = VG_(next_DebugInfo)(info))
            if (VG_(strstr)(VG_(DebugInfo_get_filename)(info), "/vgpreload_predator-")) {
                own_text = VG_(DebugInfo_get_text_avma)(info);
                own_size = VG_(DebugInfo_get_text_size)(info);
            }
    }
}

static void on_fork_child(ThreadId tid)
{
    notes_drop();
    processor_give_back();
    if (!child_follows()) {
        trace_leave();
        return;
    }
    VG_(memset)(begins, 0, sizeof begins);
    calls_forked(tid);
    live = 1;
    had_threads = False;
    judge_recording();
}

static void before_call(ThreadId tid, UInt call, UWord *words, UInt count)
{
    calls_before(tid, call, words);
    core_before_call(call, words);
    if (call == __NR_exit_group || (call == __NR_exit && live == 1))
        exit_code = words[0] & 0xff;
    /* Where it works, the program is another one, and the tool is gone. */
    if (call == __NR_execve || call == __NR_execveat) {
        write_noted();
        child_becomes(True);
        if (!child_waits()) {
            trace_becomes(True);
            trace_flush();
        }
        processor_leave();
    }
}

static Int launcher; /* what has started this process */

/* The process ends with its launcher, also where the program has become another user's, or has said
 * otherwise. */
static void stay_with_launcher(UInt call)
{
    switch (call) {
    case __NR_prctl:
    case __NR_setuid:
    case __NR_setgid:
    case __NR_setreuid:
    case __NR_setregid:
    case __NR_setresuid:
    case __NR_setresgid:
    case __NR_setfsuid:
    case __NR_setfsgid:
    case __NR_capset:
        if (VG_(getppid)() == launcher)
            CALL(__NR_prctl, PR_SET_PDEATHSIG, VKI_SIGKILL, 0, 0);
    }
}

static void after_call(ThreadId tid, UInt call, UWord *words, UInt count, SysRes result)
{
    calls_after(tid, call, words, result);
    ticks_pass(call);
    core_after_call(call, words, result);
    stay_with_launcher(call);
    if (call == __NR_execve || call == __NR_execveat) { /* it failed */
        child_becomes(False);
        if (!child_waits())
            trace_becomes(False);
    }
    processor_after_call(call, words, result);
}

static Bool on_option(const HChar *word)
{
    Long number;
    if (VG_BINT_CLO(word, "--max-bytes", number, 1, 1L << 62))
        trace_max_bytes = number;
    else if (VG_BINT_CLO(word, "--quantum", number, 1, 100000))
        quantum = number;
    else if (VG_BINT_CLO(word, "--most", number, 1, 1L << 40))
        trace_most = number;
    else if (VG_BINT_CLO(word, "--near", number, 6, 16))
        trace_near = number;
    else if (VG_BINT_CLO(word, "--switch", number, 0, 1L << 30))
        spans_switch = number;
    else if (VG_BINT_CLO(word, "--child", number, 0, 1L << 30))
        child_token = number;
    else if (VG_BINT_CLO(word, "--root", number, 1, 1L << 30))
        child_root = number;
    else
        return VG_BINT_CLO(word, "--skip", spans_skip, 1, 1L << 40) ||
               VG_BINT_CLO(word, "--skip-ms", spans_skip_ms, 1, 1L << 40) ||
               VG_BINT_CLO(word, "--for-ms", spans_for_ms, 1, 1L << 40) ||
               VG_BINT_CLO(word, "--window", spans_window, 1, 1L << 40) ||
               VG_BINT_CLO(word, "--every", spans_every, 1, 1L << 40) ||
               VG_BOOL_CLO(word, "--paused", spans_paused) ||
               VG_STR_CLO(word, "--trace", trace_path) || VG_STR_CLO(word, "--table", table_path) ||
               VG_BOOL_CLO(word, "--all", records_all) ||
               VG_BOOL_CLO(word, "--marked", marked_only) || VG_BOOL_CLO(word, "--pcs", trace_pcs);
    return True;
}

static void print_usage(void)
{
    VG_(printf)
    ("    --trace=FILE        the trace is written there\n"
     "    --table=FILE        its address map is written there [FILE.table]\n"
     "    --quantum=N         a thread's turn is N accesses, from 1 to 100000 [100]\n"
     "    --most=N            the trace ends after N accesses\n"
     "    --max-bytes=N       the trace ends after N bytes\n"
     "    --all=yes|no        accesses are recorded while one thread lives, too [no]\n"
     "    --marked=yes|no     only between PREDATOR_START and PREDATOR_STOP [no]\n"
     "    --pcs=yes|no        each access has its instruction [no]\n"
     "    --near=K            redundant accesses are left out, by regions of 2^K bytes, from 6 to "
     "16\n"
     "    --skip=N --skip-ms=N     recording begins behind N accesses, or milliseconds\n"
     "    --for-ms=N          and ends so many milliseconds later\n"
     "    --window=N --every=M     N accesses of each M are recorded\n"
     "    --paused=yes|no     it begins once it is switched on [no]\n"
     "    --switch=FD         so often was it switched (set by predator native)\n"
     "    --child=FD --root=PID   a descendant is recorded (set by predator native)\n");
}

static void after_options(void)
{
    VexControl *vex = &VG_(clo_vex_control);
    /* A turn ends at the end of a block of code, so blocks are short where turns are. */
    vex->guest_max_insns = quantum / 4 < 1 ? 1 : quantum / 4 > 50 ? 50 : quantum / 4;
    vex->guest_chase = False;
    vex->iropt_unroll_thresh = 0;
    /* No load is left out because nothing is made of it. */
    vex->iropt_register_updates_default = VexRegUpdAllregsAtEachInsn;
    launcher = VG_(getppid)();
    trace_pcs = trace_pcs || trace_near > 0;
    notes_begin(quantum);
    begin_turn();
    if (trace_path == NULL || !trace_begin(trace_path, table_path))
        VG_(exit)(125);
    child_begin();
    if (!child_waits() && !trace_start())
        VG_(exit)(125);
    spans_begin();
    code = !spans_record()                 ? (spans_count() ? COUNTS : RUNS)
           : records_all && !child_waits() ? NOTES
                                           : RUNS;
    judge_recording();
    if (!child_waits())
        processor_take();
}

static void at_end(Int code)
{
    write_noted();
    if (child_waits())
        return;
    if (trace_is_open() && spans_are_asked())
        VG_(printf)
    ("predator native: a part of the run was recorded: %llu accesses\n", trace_whole);
    if (trace_is_open() && trace_accesses == 0 && !spans_are_asked())
        VG_(printf)
    ("predator native: no access was recorded: %s\n",
     marked_only   ? "no PREDATOR_START was reached"
     : had_threads ? "its threads made none"
                   : "the program had one thread all the time, and --all records that too");
    if (trace_is_open() && !has_preload)
        VG_(printf)
    ("predator native: the program loads no libraries, so its blocks weren't seen\n");
    trace_end(exit_code >= 0, exit_code);
}

static void before_options(void)
{
    VG_(details_name)("predator");
    VG_(details_version)(NULL);
    VG_(details_description)("records which thread touches which memory");
    VG_(details_copyright_author)("part of predator");
    VG_(details_bug_reports_to)("the repository of predator");
    VG_(details_avg_translation_sizeB)(600);
    VG_(basic_tool_funcs)(after_options, instrument, at_end);
    VG_(needs_command_line_options)(on_option, print_usage, print_usage);
    VG_(needs_client_requests)(on_request);
    VG_(needs_syscall_wrapper)(before_call, after_call);
    VG_(track_start_client_code)(on_start);
    VG_(track_stop_client_code)(on_stop);
    VG_(track_pre_thread_ll_create)(on_create);
    VG_(track_pre_thread_ll_exit)(on_exit);
    VG_(track_new_mem_mmap)(on_map);
    VG_(track_new_mem_startup)(on_map);
    VG_(atfork)(NULL, NULL, on_fork_child);
}

VG_DETERMINE_INTERFACE_VERSION(before_options)
