/* Runs within a program that was compiled with -fsanitize=thread and linked with this library in
   the place of the compiler's own: each access calls a function of it, which notes it. One thread
   holds the turn, and every other one waits here, so that threads run one at a time and in an order
   that depends on nothing but the program.

   The environment says what is done: PREDATOR_TRACE is the trace, PREDATOR_TABLE the address map,
   PREDATOR_QUANTUM the length of a turn, PREDATOR_ALL=1 records while one thread lives too,
   PREDATOR_PCS=1 records each access's instruction, PREDATOR_NEAR=K filters the trace by regions of
   2^K bytes (6 to 16), PREDATOR_MOST ends the trace after so many accesses, PREDATOR_MAX_BYTES
   after so many bytes. native/predator-native sets them. */
#include "runtime.h"

Hart harts[MOST_PLACES + 1]; /* (the last is nobody's) */
int top = 1, live = 1;
unsigned long waits;
long left = 100;
__thread int self LOCAL = -1, inside LOCAL;
__thread Addr calls[DEPTH] LOCAL, call_of_block LOCAL;
__thread unsigned depth LOCAL;
__thread unsigned long steps LOCAL;
volatile int holder, recording;
static int records_all, stopped;
static volatile int
    busy; /* 1 while a thread looks at the places, 2 where another one waits for it */
static volatile int ends_by; /* the signal that is to end the program */
static void end_now(void);
static long quantum = 100, own_process;
#define DEFINED(name) __typeof__(name) *own_##name;
#define FIND(name)    OWN(name);
ALL(DEFINED)

/* ---- Turns ---- */

/* (who waits sleeps: a thread with a real-time priority would keep the one that it waits for from
 * the processor) */
void enter(void)
{
    inside++;
    if (__sync_bool_compare_and_swap(&busy, 0, 1))
        return;
    while (__atomic_exchange_n(&busy, 2, __ATOMIC_ACQUIRE) != 0)
        CALL(SYS_futex, &busy, FUTEX_WAIT_PRIVATE, 2, 0);
}
void leave(void)
{
    if (__atomic_exchange_n(&busy, 0, __ATOMIC_RELEASE) == 2)
        CALL(SYS_futex, &busy, FUTEX_WAKE_PRIVATE, 1, 0);
    inside--;
}

int next_of(int me)
{
    int it;
    for (it = me + 1; it < top; it++)
        if (harts[it].state == WANTS)
            return it;
    for (it = 0; it <= me && it < top; it++)
        if (harts[it].state == WANTS)
            return it;
    return -1;
}

void give(int hart)
{
    trace_turns++;
    /* (who sees its turn has to see that it is the holder) */
    __atomic_store_n(&holder, hart, __ATOMIC_RELEASE);
    if (hart < 0)
        return;
    spin_ends(&harts[hart]);
    __atomic_store_n(&harts[hart].turn, 1, __ATOMIC_SEQ_CST);
    if (__atomic_load_n(&harts[hart].sleeps, __ATOMIC_SEQ_CST))
        CALL(SYS_futex, &harts[hart].turn, FUTEX_WAKE_PRIVATE, 1, 0);
}

/* What a thread that waits for its turn saw of the holder, when it looked. */
typedef struct {
    unsigned long turns, steps; /* so many turns were given, and so often was the holder here */
    long left;
    long long ran, since; /* for so many ns the holder has had the processor, and had when it was
                             here last; or -1 where it wasn't looked at */
    char does;            /* S where it sleeps in a call of the system, R where it runs */
} Look;

/* A thread that doesn't come here for so long, and runs, may wait for another one in code that
   isn't seen here: where one did, the next is waited for less. */
static long long patience = 1000000000;

/* What a thread does, and how long it has had the processor: nothing where a trace is being
 * written. */
static void look_at(int tid, Look *it)
{
    char path[60], text[300];
    const char *end;
    struct timespec ran;
    it->ran = -1;
    snprintf(path, sizeof path, "/proc/self/task/%d/stat", tid);
    SysRes file = tid > 0 && !recording && calls_of_trace == 0 ? predator_open(path, O_RDONLY, 0)
                                                               : (SysRes){-ENOENT};
    if (sr_isError(file))
        return;
    SysRes count = CALL(SYS_read, sr_Res(file), text, sizeof text - 1, 0);
    predator_close(sr_Res(file));
    text[sr_isError(count) ? 0 : sr_Res(count)] = 0;
    end = strrchr(text, ')');
    /* (the clock of a thread's time is named by its number) */
    if (!end || end[1] != ' ' || calls_of_trace ||
        sr_isError(CALL(SYS_clock_gettime, ~(UWord)tid << 3 | 6, &ran, 0, 0)))
        return;
    it->does = end[2];
    it->ran = ran.tv_sec * 1000000000LL + ran.tv_nsec;
}

/* Whether it has been asleep since the last look, or runs and hasn't been here for long. */
static int is_silent(const Look *now, const Look *last)
{
    if (now->ran < 0 || last->ran < 0 || now->turns != last->turns || now->steps != last->steps ||
        now->left != last->left)
        return 0;
    return now->does == 'S' ? last->does == 'S' && now->ran == last->ran
                            : now->does == 'R' && now->ran - now->since >= patience;
}

/* The holder's turn is taken, if it is still silent then: from here on it can't go on without being
 * seen. */
static int is_taken(int it, const Look *now)
{
    static const struct timespec moment = {0, 1000000};
    Look again = *now;
    holder = -1;
    __sync_synchronize();
    if (now->does == 'R')
        CALL(SYS_nanosleep, &moment, 0, 0, 0);
    look_at(harts[it].tid, &again);
    if (again.ran >= 0 && *harts[it].steps == now->steps && left == now->left &&
        (now->does == 'R' || (again.does == 'S' && again.ran == now->ran))) {
        harts[it].state = AWAY;
        if (now->does == 'R')
            patience = 5000000;
        return 1;
    }
    holder = it;
    return 0;
}

/* For a thread that has waited for its turn for some time. Where the holder has slept since the
   last look, in a call of the system that isn't known here, or runs in code that isn't, it loses
   the turn: what it waits for may be another thread. */
static void look_at_holder(int me, Look *last)
{
    enter();
    int it = holder;
    Look now = {.turns = trace_turns, .left = left, .ran = -1};
    if (harts[me].state == AWAY) /* its turn was taken in a signal's handler */
        harts[me].state = WANTS;
    if (it >= 0 && it != me && harts[it].turn == 0 && harts[it].steps && next_of(it) == me) {
        now.steps = *harts[it].steps;
        look_at(harts[it].tid, &now);
    }
    now.since = last->ran >= 0 && now.turns == last->turns && now.steps == last->steps &&
                        now.left == last->left
                    ? last->since
                    : now.ran;
    if ((it < 0 && harts[me].state == WANTS) || (is_silent(&now, last) && is_taken(it, &now)))
        give(me);
    *last = now;
    leave();
}

static void sleep_for_turn(int me)
{
    Look last = {.ran = -1};
    __atomic_store_n(&harts[me].sleeps, 1, __ATOMIC_SEQ_CST);
    while (__atomic_load_n(&harts[me].turn, __ATOMIC_SEQ_CST) == 0) {
        struct timespec each = {0, patience < 50000000 ? patience : 50000000};
        SysRes waited = CALL(SYS_futex, &harts[me].turn, FUTEX_WAIT_PRIVATE, 0, &each);
        if (sr_isError(waited) && sr_Err(waited) == ETIMEDOUT)
            look_at_holder(me, &last);
    }
    harts[me].sleeps = 0;
}

void rest(int me)
{
    if (!spin(&harts[me]))
        sleep_for_turn(me);
    harts[me].turn = 0;
    left = quantum;
    if (ends_by)
        end_now();
}

void pass(void)
{
    int me = self, next, has_turn;
    if (ends_by && holder == me)
        end_now();
    enter();
    if (harts[me].state != WANTS) /* (a line that nobody writes is read by all at once) */
        harts[me].state = WANTS;
    next = next_of(me);
    if (holder < 0 || (holder == me && next != me))
        give(next);
    has_turn = holder == me;
    leave();
    if (has_turn) {
        harts[me].turn = 0;
        left = quantum;
    } else {
        rest(me);
    }
}

void regain(void)
{
    if (holder == self)
        pass();
    else
        come_back();
}

void wait_for(const void *at)
{
    int me = self, next;
    enter();
    harts[me].state = WAITS;
    harts[me].at = at;
    harts[me].since = ++waits;
    next = next_of(me);
    if (holder == me)
        give(next);
    if (next < 0) {
        int it;
        for (it = 0; it < top && harts[it].state != AWAY; it++)
            ;
        if (it == top && !stopped) {
            stopped = 1;
            trace_flush();
            predator_printf("predator native: every thread waits for another one\n");
        }
    }
    leave();
    rest(me);
}

int wake(const void *at, int most)
{
    int count;
    enter();
    for (count = 0; count < most; count++) {
        Hart *first = 0;
        int it;
        for (it = 0; it < top; it++)
            if ((harts[it].state == WAITS || harts[it].timed) && harts[it].at == at &&
                (!first || harts[it].since < first->since))
                first = &harts[it];
        if (!first)
            break;
        if (first->state == WAITS)
            first->state = WANTS;
        first->timed = 0;
        first->at = 0;
    }
    if (count > 0 && holder < 0) /* no thread of those that are known has woken them */
        give(next_of(0));
    leave();
    return count;
}

void go_away(void)
{
    enter();
    harts[self].state = AWAY;
    if (holder == self)
        give(next_of(self));
    leave();
}
void come_back(void)
{
    int me = self, is_free, before = errno;
    enter();
    harts[me].state = WANTS;
    is_free = holder < 0;
    if (is_free) {
        trace_turns++;
        holder = me;
        left = quantum;
    }
    is_free = holder == me;
    leave();
    if (!is_free)
        rest(me);
    errno = before;
}

/* ---- Recording ---- */

void judge(void)
{
    int records = trace_is_open() && (records_all || live >= 2);
    if (records && !trace_records) {
        trace_records = True;
        trace_library();
        trace_resume();
    }
    trace_records = records;
}

UInt predator_get_StackTrace(ThreadId tid, Addr *own, UInt most, Addr *sps, Addr *fps, Word delta)
{
    UInt it;
    own[0] = 0;
    own[1] = call_of_block;
    for (it = 2; it < most && it - 1 <= depth && it - 1 <= DEPTH; it++)
        own[it] = calls[(depth - (it - 1)) % DEPTH] - 1;
    return it;
}

/* ---- The beginning and the end ---- */

void at_end(int status, void *none)
{
    if (CALL(SYS_getpid, 0, 0, 0, 0).value !=
        own_process) /* a child of vfork, which has this program's memory */
        return;
    hold();
    if (self >= 0 || live == 0)
        trace_end(True, status & 0xff);
}

/* The trace ends, and the program by the signal that has come. Only who has the turn comes here. */
static void end_now(void)
{
    sigset_t none;
    inside++;
    trace_end(False, 0);
    signal(ends_by, SIG_DFL);
    sigemptyset(&none);
    pthread_sigmask(SIG_SETMASK, &none, 0);
    for (;;)
        CALL(SYS_kill, own_process, ends_by, 0, 0);
}

/* A signal from outside, to whatever thread. What was recorded is written by the thread that has
   the turn, once it comes here; by this one where none has it; and where the turn isn't to be had
   for two seconds, what was written stays. */
static void at_signal(int number)
{
    static const struct timespec each = {0, 20000000};
    int before = errno, times = 0, me = self < 0 ? MOST_PLACES : self;
    if (CALL(SYS_getpid, 0, 0, 0, 0).value != own_process) /* a child of vfork */
        times = 101;
    else if (ends_by == 0)
        ends_by = number;
    for (; !inside && times <= 100; times++) {
        enter();
        if (holder < 0)
            holder = me;
        int is_mine = holder == me;
        leave();
        if (is_mine)
            end_now();
        CALL(SYS_nanosleep, &each, 0, 0, 0);
    }
    if (times > 100) {
        signal(number, SIG_DFL);
        raise(number);
    }
    errno = before;
}

/* A fault of the program's own, which holds the turn. Where the program has a handler of its own,
 * that is in this one's place. */
static void at_fault(int number)
{
    if (self >= 0)
        trace_end(False, 0);
    raise(number);
}

static void first_thread(void)
{
    self = holder = 0;
    top = live = 1;
    own_process = CALL(SYS_getpid, 0, 0, 0, 0).value;
    harts[0].state = WANTS;
    harts[0].thread = pthread_self();
    harts[0].tid = CALL(SYS_gettid, 0, 0, 0, 0).value;
    harts[0].steps = &steps;
}

/* The first thread's stack grows as far as the limit says. */
static void tell_first_stack(void)
{
    struct rlimit most;
    Addr from, to;
    const HChar *path;
    inside = recording = 1;
    if (trace_is_open() && mapping_of((Addr)__builtin_frame_address(0), True, &from, &to, &path)) {
        if (getrlimit(RLIMIT_STACK, &most) == 0 && most.rlim_cur < to && to - most.rlim_cur < from)
            from = to - most.rlim_cur;
        trace_stack(0, from, to);
    }
    inside = recording = 0;
}

static void in_child(void)
{
    int me = self;
    trace_leave();
    memset(harts, 0, sizeof harts);
    spin_forked();
    busy = calls_of_trace = recording = ends_by = 0;
    own_process = CALL(SYS_getpid, 0, 0, 0, 0).value;
    if (me >= 0)
        first_thread();
}

static long number_of(const char *name, long least, long most, long usual)
{
    const char *text = getenv(name);
    char *end;
    if (!text || !*text)
        return usual;
    errno = 0;
    long value = strtol(text, &end, 10);
    if (*end || errno || value < least || value > most) {
        predator_printf("predator native: %s is %ld to %ld, and not '%s'\n", name, least, most,
                        text);
        _Exit(125);
    }
    return value;
}

void __attribute__((constructor)) begin(void)
{
    static int begun;
    const char *path = getenv("PREDATOR_TRACE"), *table = getenv("PREDATOR_TABLE");
    int fault;
    if (begun++)
        return;
    ALL(FIND)
    quantum = left = number_of("PREDATOR_QUANTUM", 1, 100000, 100);
    trace_most = number_of("PREDATOR_MOST", 1, 1L << 40, 0);
    trace_max_bytes = number_of("PREDATOR_MAX_BYTES", 1, 1L << 62, 0);
    records_all = number_of("PREDATOR_ALL", 0, 1, 0);
    trace_pcs = number_of("PREDATOR_PCS", 0, 1, 0);
    trace_near = number_of("PREDATOR_NEAR", 0, 16, 0);
    trace_pcs = trace_pcs || trace_near;
    first_thread();
    spin_begin();
    if (path && *path && !(trace_begin(path, table && *table ? table : 0) && trace_start()))
        _Exit(125);
    tell_first_stack();
    /* (what the program starts runs without a trace) */
    unsetenv("PREDATOR_TRACE");
    unsetenv("PREDATOR_TABLE");
    on_exit(at_end, 0);
    pthread_atfork(0, 0, in_child);
    for (fault = 0; fault < 5; fault++) {
        static const int faults[5] = {SIGSEGV, SIGBUS, SIGILL, SIGFPE, SIGABRT};
        struct sigaction action = {.sa_handler = at_fault, .sa_flags = SA_RESETHAND | SA_NODEFER};
        sigaction(faults[fault], &action, 0);
    }
    for (fault = 0; trace_is_open() && fault < 4; fault++) {
        static const int ends[4] = {SIGTERM, SIGINT, SIGHUP, SIGQUIT};
        struct sigaction action = {.sa_handler = at_signal, .sa_flags = SA_RESTART | SA_NODEFER},
                         own;
        if (sigaction(ends[fault], 0, &own) == 0 && own.sa_handler == SIG_DFL)
            sigaction(ends[fault], &action, 0);
    }
    judge();
}
