// Signals that a program raises itself, and masks, which hold nothing back. What a signal runs is the same for all threads, and stays.
#include <errno.h>
#include <signal.h>
#include <stddef.h>
#include <unistd.h>
#include "../predator.h"

static struct sigaction actions[NSIG];

static int refused(int error)
{
    errno = error;
    return -1;
}

int sigaction(int number, const struct sigaction *now, struct sigaction *before)
{
    if (number <= 0 || number >= NSIG || (now != NULL && (number == SIGKILL || number == SIGSTOP)))
        return refused(EINVAL);
    struct sigaction old = actions[number];
    if (now != NULL)
        actions[number] = *now;
    if (before != NULL)
        *before = old;
    return 0;
}

_sig_func_ptr signal(int number, _sig_func_ptr handler)
{
    struct sigaction now = {.sa_handler = handler}, before;
    return sigaction(number, &now, &before) == 0 ? before.sa_handler : SIG_ERR;
}

static int is_ignored(int number)
{
    return number == SIGCHLD || number == SIGCONT || number == SIGURG || number == SIGWINCH;
}

// A signal that isn't handled ends the run with 128 and its number, as a shell reports such a program.
int raise(int number)
{
    if (number < 0 || number >= NSIG)
        return refused(EINVAL);
    struct sigaction *it = &actions[number];
    _sig_func_ptr handler = it->sa_handler;
    if (number == 0 || handler == SIG_IGN)
        return 0;
    if (handler == SIG_DFL) {
        if (!is_ignored(number))
            predator_exit_group(128 + number);
        return 0;
    }
    if (it->sa_flags & (int)SA_RESETHAND)
        it->sa_handler = SIG_DFL;
    handler(number);
    return 0;
}

// (to the program itself: there is one process)
int kill(pid_t process, int number)
{
    return process == getpid() ? raise(number) : refused(ESRCH);
}

static _Thread_local sigset_t mask;

int pthread_sigmask(int how, const sigset_t *now, sigset_t *before)
{
    if (before != NULL)
        *before = mask;
    if (now == NULL)
        return 0;
    if (how == SIG_BLOCK)
        mask |= *now;
    else if (how == SIG_UNBLOCK)
        mask &= ~*now;
    else if (how == SIG_SETMASK)
        mask = *now;
    else
        return EINVAL;
    return 0;
}

int sigprocmask(int how, const sigset_t *now, sigset_t *before)
{
    int error = pthread_sigmask(how, now, before);
    return error == 0 ? 0 : refused(error);
}

int sigpending(sigset_t *set)
{
    *set = 0;
    return 0;
}
