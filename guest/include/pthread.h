// Threads over the harts of predator: each thread is a hart, and there are no more threads at a time than harts. What waits, waits
// by the call `wait` and takes no step meanwhile; a spin lock alone spins. What can't be had is declared, and a call of it is a build
// error that says why.
#ifndef PREDATOR_PTHREAD_H
#define PREDATOR_PTHREAD_H

#include <predator_missing.h>
#include <sched.h>
#include <stddef.h>
#include <stdint.h>
#if __has_include(<sys/types.h>)
#include <sys/types.h>
#include <time.h>
#endif

#ifdef __cplusplus
extern "C" {
#endif

// ---- threads

// One more than the number of the thread's hart.
typedef unsigned long pthread_t;

#ifndef PTHREAD_STACK_MIN
#define PTHREAD_STACK_MIN 4096
#endif
#define PTHREAD_CREATE_JOINABLE 0
#define PTHREAD_CREATE_DETACHED 1
#define PTHREAD_SCOPE_SYSTEM 0
#define PTHREAD_SCOPE_PROCESS 1
#define PTHREAD_INHERIT_SCHED 0
#define PTHREAD_EXPLICIT_SCHED 1

// Each stack has the size of the settings, wherever it is said otherwise. Of what is set here only the detached state has an effect.
typedef struct {
    int detached, scope, inherits, policy, priority;
    size_t stack, guard;
} pthread_attr_t;

// EAGAIN where every hart is in use. A thread that has ended is in use until it is joined; a detached one no longer than it runs.
int pthread_create(pthread_t *thread, const pthread_attr_t *attr, void *(*run)(void *), void *argument);

// EDEADLK for the caller itself, EINVAL for a thread that is detached or that another one joins, ESRCH for what is no thread.
int pthread_join(pthread_t thread, void **result);
int pthread_detach(pthread_t thread);
_Noreturn void pthread_exit(void *result);
pthread_t pthread_self(void);
int pthread_equal(pthread_t one, pthread_t other);

int pthread_attr_init(pthread_attr_t *attr);
int pthread_attr_destroy(pthread_attr_t *attr);
int pthread_attr_setdetachstate(pthread_attr_t *attr, int detached);
int pthread_attr_getdetachstate(const pthread_attr_t *attr, int *detached);
int pthread_attr_setstacksize(pthread_attr_t *attr, size_t size);
int pthread_attr_getstacksize(const pthread_attr_t *attr, size_t *size);
int pthread_attr_setguardsize(pthread_attr_t *attr, size_t size);
int pthread_attr_getguardsize(const pthread_attr_t *attr, size_t *size);
int pthread_attr_setscope(pthread_attr_t *attr, int scope);
int pthread_attr_getscope(const pthread_attr_t *attr, int *scope);
int pthread_attr_setinheritsched(pthread_attr_t *attr, int inherits);
int pthread_attr_getinheritsched(const pthread_attr_t *attr, int *inherits);
int pthread_attr_setschedpolicy(pthread_attr_t *attr, int policy);
int pthread_attr_getschedpolicy(const pthread_attr_t *attr, int *policy);
int pthread_attr_setschedparam(pthread_attr_t *attr, const struct sched_param *param);
int pthread_attr_getschedparam(const pthread_attr_t *attr, struct sched_param *param);

// A thread stays on its hart, so a wish where it runs is heard and changes nothing.
int pthread_setconcurrency(int level);
int pthread_getconcurrency(void);
int pthread_setschedparam(pthread_t thread, int policy, const struct sched_param *param);
int pthread_setname_np(pthread_t thread, const char *name);
int pthread_setaffinity_np(pthread_t thread, size_t size, const cpu_set_t *set);
int pthread_getaffinity_np(pthread_t thread, size_t size, cpu_set_t *set);
int pthread_attr_setaffinity_np(pthread_attr_t *attr, size_t size, const cpu_set_t *set);

// ---- mutexes

#define PTHREAD_MUTEX_NORMAL 0
#define PTHREAD_MUTEX_RECURSIVE 1
#define PTHREAD_MUTEX_ERRORCHECK 2
#define PTHREAD_MUTEX_DEFAULT PTHREAD_MUTEX_NORMAL
enum { PTHREAD_MUTEX_RECURSIVE_NP = PTHREAD_MUTEX_RECURSIVE, PTHREAD_MUTEX_ERRORCHECK_NP = PTHREAD_MUTEX_ERRORCHECK };
#define PTHREAD_PROCESS_PRIVATE 0
#define PTHREAD_PROCESS_SHARED 1

// The word is 0 where the mutex is free, 1 where it is held, and 2 where it is held and others may wait. The rest is of use to the
// kinds that know their holder: its number and how often it holds it.
typedef struct {
    uint32_t word;
    int kind;
    uint32_t holder, times;
} pthread_mutex_t;

typedef struct {
    int kind, shared;
} pthread_mutexattr_t;

#define PTHREAD_MUTEX_INITIALIZER {0, PTHREAD_MUTEX_NORMAL, 0, 0}
#define PTHREAD_RECURSIVE_MUTEX_INITIALIZER_NP {0, PTHREAD_MUTEX_RECURSIVE, 0, 0}
#define PTHREAD_ERRORCHECK_MUTEX_INITIALIZER_NP {0, PTHREAD_MUTEX_ERRORCHECK, 0, 0}

int pthread_mutex_init(pthread_mutex_t *mutex, const pthread_mutexattr_t *attr);
int pthread_mutex_destroy(pthread_mutex_t *mutex);
int pthread_mutex_lock(pthread_mutex_t *mutex);
int pthread_mutex_trylock(pthread_mutex_t *mutex);
int pthread_mutex_unlock(pthread_mutex_t *mutex);

int pthread_mutexattr_init(pthread_mutexattr_t *attr);
int pthread_mutexattr_destroy(pthread_mutexattr_t *attr);
int pthread_mutexattr_settype(pthread_mutexattr_t *attr, int kind);
int pthread_mutexattr_gettype(const pthread_mutexattr_t *attr, int *kind);
int pthread_mutexattr_setpshared(pthread_mutexattr_t *attr, int shared);
int pthread_mutexattr_getpshared(const pthread_mutexattr_t *attr, int *shared);

// ---- condition variables

// How often it was signalled.
typedef struct {
    uint32_t signals;
} pthread_cond_t;

typedef struct {
    int shared, clock;
} pthread_condattr_t;

#define PTHREAD_COND_INITIALIZER {0}

int pthread_cond_init(pthread_cond_t *cond, const pthread_condattr_t *attr);
int pthread_cond_destroy(pthread_cond_t *cond);
int pthread_cond_wait(pthread_cond_t *cond, pthread_mutex_t *mutex);
int pthread_cond_signal(pthread_cond_t *cond);
int pthread_cond_broadcast(pthread_cond_t *cond);

int pthread_condattr_init(pthread_condattr_t *attr);
int pthread_condattr_destroy(pthread_condattr_t *attr);
int pthread_condattr_setpshared(pthread_condattr_t *attr, int shared);
int pthread_condattr_getpshared(const pthread_condattr_t *attr, int *shared);

// ---- locks for readers and writers

// The word is 0 where the lock is free, the number of its readers, or all ones for a writer. Who waits, waits for the next
// number of changes.
typedef struct {
    uint32_t word, changes, waiters;
} pthread_rwlock_t;

typedef struct {
    int shared;
} pthread_rwlockattr_t;

#define PTHREAD_RWLOCK_INITIALIZER {0, 0, 0}

int pthread_rwlock_init(pthread_rwlock_t *lock, const pthread_rwlockattr_t *attr);
int pthread_rwlock_destroy(pthread_rwlock_t *lock);
int pthread_rwlock_rdlock(pthread_rwlock_t *lock);
int pthread_rwlock_tryrdlock(pthread_rwlock_t *lock);
int pthread_rwlock_wrlock(pthread_rwlock_t *lock);
int pthread_rwlock_trywrlock(pthread_rwlock_t *lock);
int pthread_rwlock_unlock(pthread_rwlock_t *lock);

int pthread_rwlockattr_init(pthread_rwlockattr_t *attr);
int pthread_rwlockattr_destroy(pthread_rwlockattr_t *attr);
int pthread_rwlockattr_setpshared(pthread_rwlockattr_t *attr, int shared);

// ---- barriers

#define PTHREAD_BARRIER_SERIAL_THREAD (-1)

// How many threads meet, how many have come, and how often they have met.
typedef struct {
    uint32_t threads, come, rounds;
} pthread_barrier_t;

typedef struct {
    int shared;
} pthread_barrierattr_t;

int pthread_barrier_init(pthread_barrier_t *barrier, const pthread_barrierattr_t *attr, unsigned threads);
int pthread_barrier_destroy(pthread_barrier_t *barrier);
int pthread_barrier_wait(pthread_barrier_t *barrier);

int pthread_barrierattr_init(pthread_barrierattr_t *attr);
int pthread_barrierattr_destroy(pthread_barrierattr_t *attr);
int pthread_barrierattr_setpshared(pthread_barrierattr_t *attr, int shared);

// ---- what is done once

// 0 where it wasn't begun, 1 where a thread is at it, and 2 where it is done.
typedef uint32_t pthread_once_t;

#define PTHREAD_ONCE_INIT 0

int pthread_once(pthread_once_t *once, void (*run)(void));

// ---- spin locks, which spin as their name says: for what needs no spinning take a mutex

typedef uint32_t pthread_spinlock_t;

int pthread_spin_init(pthread_spinlock_t *lock, int shared);
int pthread_spin_destroy(pthread_spinlock_t *lock);
int pthread_spin_lock(pthread_spinlock_t *lock);
int pthread_spin_trylock(pthread_spinlock_t *lock);
int pthread_spin_unlock(pthread_spinlock_t *lock);

// ---- data of each thread's own

#define PTHREAD_KEYS_MAX 128
#define PTHREAD_DESTRUCTOR_ITERATIONS 4

typedef unsigned pthread_key_t;

int pthread_key_create(pthread_key_t *key, void (*destructor)(void *));
int pthread_key_delete(pthread_key_t key);
int pthread_setspecific(pthread_key_t key, const void *value);
void *pthread_getspecific(pthread_key_t key);

// ---- what is cleaned up where a thread exits

struct pthread_cleanup {
    void (*run)(void *);
    void *argument;
    struct pthread_cleanup *before;
};

void pthread_cleanup_enter(struct pthread_cleanup *cleanup);
void pthread_cleanup_leave(struct pthread_cleanup *cleanup, int runs);

#define pthread_cleanup_push(function, its_argument)                                                                                       \
    do {                                                                                                                                   \
        struct pthread_cleanup pthread_cleanup_here = {function, its_argument, 0};                                                         \
        pthread_cleanup_enter(&pthread_cleanup_here)
#define pthread_cleanup_pop(runs)                                                                                                          \
    pthread_cleanup_leave(&pthread_cleanup_here, runs);                                                                                    \
    }                                                                                                                                      \
    while (0)

// ---- waits that end at a time of the clock, where there is a C library (time.h has the clock)

struct timespec;
int pthread_mutex_timedlock(pthread_mutex_t *mutex, const struct timespec *until);
int pthread_cond_timedwait(pthread_cond_t *cond, pthread_mutex_t *mutex, const struct timespec *until);
int pthread_rwlock_timedrdlock(pthread_rwlock_t *lock, const struct timespec *until);
int pthread_rwlock_timedwrlock(pthread_rwlock_t *lock, const struct timespec *until);
#if __has_include(<sys/types.h>)
int pthread_condattr_setclock(pthread_condattr_t *attr, clockid_t clock);
int pthread_condattr_getclock(const pthread_condattr_t *attr, clockid_t *clock);
#endif

// ---- what can't be had

// (constants that programs name beside them; those of an enum are no macros, so that `#ifdef` says that they aren't there)
#define PTHREAD_CANCELED ((void *)-1)
#define PTHREAD_CANCEL_ENABLE 0
#define PTHREAD_CANCEL_DISABLE 1
#define PTHREAD_CANCEL_DEFERRED 0
#define PTHREAD_CANCEL_ASYNCHRONOUS 1
enum { PTHREAD_MUTEX_STALLED, PTHREAD_MUTEX_ROBUST };
enum { PTHREAD_PRIO_NONE, PTHREAD_PRIO_INHERIT, PTHREAD_PRIO_PROTECT };

int pthread_cancel(pthread_t thread) PREDATOR_NO_CANCEL;
int pthread_setcancelstate(int state, int *old) PREDATOR_NO_CANCEL;
int pthread_setcanceltype(int type, int *old) PREDATOR_NO_CANCEL;
void pthread_testcancel(void) PREDATOR_NO_CANCEL;
int pthread_kill(pthread_t thread, int signal) PREDATOR_NO_SIGNAL;
int pthread_sigqueue(pthread_t thread, int signal, ...) PREDATOR_NO_SIGNAL;
int pthread_timedjoin_np(pthread_t thread, void **result, const struct timespec *until) PREDATOR_NO_CLOCK;
int pthread_getcpuclockid(pthread_t thread, int *clock) PREDATOR_NO_CLOCK;
int pthread_attr_setstack(pthread_attr_t *attr, void *stack, size_t size) PREDATOR_NO_STACK;
int pthread_attr_getstack(const pthread_attr_t *attr, void **stack, size_t *size) PREDATOR_NO_STACK;
int pthread_attr_setstackaddr(pthread_attr_t *attr, void *stack) PREDATOR_NO_STACK;
int pthread_attr_getstackaddr(const pthread_attr_t *attr, void **stack) PREDATOR_NO_STACK;
int pthread_getattr_np(pthread_t thread, pthread_attr_t *attr) PREDATOR_NO_STACK;
int pthread_mutexattr_setrobust(pthread_mutexattr_t *attr, int robust) PREDATOR_NO_ROBUST;
int pthread_mutex_consistent(pthread_mutex_t *mutex) PREDATOR_NO_ROBUST;
int pthread_mutexattr_setprotocol(pthread_mutexattr_t *attr, int protocol) PREDATOR_NO_PRIORITY;
int pthread_mutexattr_setprioceiling(pthread_mutexattr_t *attr, int ceiling) PREDATOR_NO_PRIORITY;
int pthread_setschedprio(pthread_t thread, int priority) PREDATOR_NO_PRIORITY;
int pthread_atfork(void (*prepare)(void), void (*parent)(void), void (*child)(void)) PREDATOR_NO_FORK;

#ifdef __cplusplus
}
#endif

#endif
