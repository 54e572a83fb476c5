// The C library's sys/signal.h. A signal comes by `raise` or `kill` from the program itself, and runs what `signal` or `sigaction` set,
// whichever thread did, or ends the run. A mask is kept for each thread, empty at first, and can be read back; it blocks nothing.
#ifndef PREDATOR_SYS_SIGNAL_H
#define PREDATOR_SYS_SIGNAL_H

#include <predator_missing.h>
#include <sys/_sigset.h>
#include <sys/types.h>

#ifdef __cplusplus
extern "C" {
#endif

int killpg(pid_t group, int signal) PREDATOR_NO_PROCESS;
int sigsuspend(const __sigset_t *set) PREDATOR_NO_SIGNAL;
int sigwait(const __sigset_t *set, int *signal) PREDATOR_NO_SIGNAL;

#ifdef __cplusplus
}
#endif

#include_next <sys/signal.h>

// (what sigaction hears, and what has no effect)
#ifndef SA_RESTART
#define SA_RESTART 0x10000000
#endif
#ifndef SA_NODEFER
#define SA_NODEFER 0x40000000
#endif
#ifndef SA_RESETHAND
#define SA_RESETHAND 0x80000000
#endif

#ifdef __cplusplus
extern "C" {
#endif

int pthread_sigmask(int how, const sigset_t *now, sigset_t *before);

#ifdef __cplusplus
}
#endif

#endif
