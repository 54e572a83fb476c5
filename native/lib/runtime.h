/* What the parts of the runtime share: runtime.c has the turns and the beginning and end of the
   whole, spin.c how a thread waits for its turn without the kernel, accesses.c what the compiler
   calls, waits.c what waits for other threads, c11.c the same by the names of C11, blocks.c the
   functions that make blocks. */
#ifndef PREDATOR_RUNTIME_H
#define PREDATOR_RUNTIME_H

#include "compat.h"

#include <dlfcn.h>
#include <errno.h>
#include <pthread.h>
#include <sched.h>
#include <semaphore.h>
#include <stdlib.h>
#include <sys/epoll.h>
#include <sys/mman.h>
#include <sys/resource.h>
#include <sys/select.h>
#include <sys/socket.h>
#include <sys/wait.h>
#include <poll.h>
#include <linux/futex.h>

#define SHOWN __attribute__((visibility("default")))
#define LOCAL __attribute__((tls_model("initial-exec")))

/* (on a line of its own, since another processor may be reading it) */
#define ALONE __attribute__((aligned(64)))

enum { FREE, WANTS, WAITS, AWAY, ENDED };
typedef struct {
    int state;
    const void *at;      /* what it waits for */
    unsigned long since; /* and in what order */
    int timed;           /* waits for a time too, and looks at it in its turns */
    int detached;
    int tid;                             /* the system's number of it */
    const volatile unsigned long *steps; /* its own */
    pthread_t thread;
    void *(*start)(void *);
    int (*start_c11)(void *); /* or this one */
    void *argument;
    unsigned turn ALONE;    /* 1 once the turn was given to it */
    unsigned spins, sleeps; /* how it waits for that */
} Hart;

#define MOST_PLACES                                                                                \
    2000 /* more than a trace has harts: the trace ends then, and the program goes on */
extern Hart harts[MOST_PLACES + 1];
extern int top, live;          /* no place from `top` on is in use; so many threads live */
extern volatile int holder;    /* whose turn it is, or -1 */
extern volatile int recording; /* the holder is writing something down */
extern unsigned long waits;
extern long left;               /* so many accesses has the turn still */
extern __thread int self LOCAL; /* the thread's hart, or -1 */
extern __thread int inside
    LOCAL; /* it is in here, and a signal's handler that runs meanwhile does nothing here */
extern __thread unsigned long steps
    LOCAL; /* grows as it comes here: where it doesn't, the thread does what isn't seen here */
#define DEPTH 64
extern __thread Addr calls[DEPTH] LOCAL; /* where its functions were called from, the last ones */
extern __thread unsigned depth LOCAL;
extern __thread Addr call_of_block LOCAL;

void enter(void); /* the places are looked at and changed between these two */
void leave(void);
int next_of(int hart); /* who has the turn behind a hart, or -1 */
void give(int hart);
void rest(int hart);    /* waits for the turn */
int spin(Hart *);       /* the same without the kernel, for a moment */
void spin_ends(Hart *); /* the turn was given to it */
void spin_begin(void);
void spin_forked(void);        /* no other thread is there any more */
void pass(void);               /* gives it to the next one that wants it */
void wait_for(const void *at); /* until another thread wakes those that wait there */
int wake(const void *at,
         int most); /* those that wait at a place, the first ones first: how many there were */
void go_away(void); /* around a call that may wait for what is no thread */
void come_back(void);
void regain(void); /* passes the turn where it is over, and gets it where it was lost */
void begin(void);  /* once, before anything else */
int create(pthread_t *, const pthread_attr_t *, void *(*)(void *), int (*)(void *), void *);
void judge(void); /* whether accesses are recorded now */
void at_end(int status, void *none);

/* (a thread whose turn is taken since it wasn't here for long sees that, or its step is seen) */
static inline void step(void)
{
    steps++;
    __asm__ volatile("" ::: "memory");
}
static inline void ready(void)
{
    step();
    if ((left <= 0 || holder != self) && self >= 0 && !inside)
        regain();
}
static inline void hold(void) /* gets the turn where it was lost */
{
    step();
    if (holder != self && self >= 0 && !inside)
        regain();
}
/* `caller` is where the access's call of the runtime comes back to; its instruction is the last
 * byte of the call, as of a call site. */
static inline void note(const volatile void *addr, unsigned size, int writes, Addr caller)
{
    if (self < 0 || inside)
        return;
    left--;
    if (!trace_records)
        return;
    inside = recording = 1;
    trace_access(self, writes, (Addr)addr, size, trace_pcs ? trace_pc(caller - 1) : 0);
    inside = recording = 0;
}
static inline void touch(const volatile void *addr, unsigned size, int writes, Addr caller)
{
    ready();
    note(addr, size, writes, caller);
}

#define CALLER ((Addr)__builtin_return_address(0))
/* The system's own functions behind those of the same name. Another library may call one before
 * `begin` has run. */
#define OWN(name) (own_##name ? own_##name : (__typeof__(name) *)found((void **)&own_##name, #name))
static inline void *found(void **own, const char *name) { return *own = dlsym(RTLD_NEXT, name); }
#define DECLARED(name) extern __typeof__(name) *own_##name;
#define ALL(it)                                                                                    \
    it(syscall) it(close) it(execve) it(pthread_create) it(pthread_join) it(pthread_detach)        \
        it(pthread_exit) it(pthread_once) it(pthread_mutex_lock) it(pthread_mutex_timedlock)       \
            it(pthread_mutex_clocklock) it(pthread_mutex_trylock) it(pthread_mutex_unlock)         \
                it(pthread_cond_wait) it(pthread_cond_timedwait) it(pthread_cond_clockwait)        \
                    it(pthread_cond_signal) it(pthread_cond_broadcast) it(pthread_rwlock_rdlock)   \
                        it(pthread_rwlock_wrlock) it(pthread_rwlock_tryrdlock)                     \
                            it(pthread_rwlock_trywrlock) it(pthread_rwlock_unlock)                 \
                                it(pthread_spin_lock) it(pthread_spin_trylock)                     \
                                    it(pthread_spin_unlock) it(sem_wait) it(sem_trywait)           \
                                        it(sem_post) it(read) it(poll) it(ppoll) it(select)        \
                                            it(pselect) it(epoll_wait) it(accept) it(accept4)      \
                                                it(recv) it(recvfrom) it(recvmsg) it(wait)         \
                                                    it(waitpid) it(nanosleep) it(clock_nanosleep)  \
                                                        it(usleep) it(sleep)
ALL(DECLARED)

#endif
