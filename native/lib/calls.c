/* Calls that wait for what is no thread, and those that end the program or put another one in its
   place. */
#include "runtime.h"

/* ---- Calls that wait for what is no thread ---- */

#define WAITING(name, type, list, words)                                                           \
    SHOWN type name list                                                                           \
    {                                                                                              \
        if (self < 0 || live < 2)                                                                  \
            return OWN(name) words;                                                                \
        go_away();                                                                                 \
        type result = OWN(name) words;                                                             \
        come_back();                                                                               \
        return result;                                                                             \
    }
WAITING(read, ssize_t, (int file, void *bytes, size_t count), (file, bytes, count))
WAITING(poll, int, (struct pollfd * files, nfds_t count, int time), (files, count, time))
WAITING(ppoll, int,
        (struct pollfd * files, nfds_t count, const struct timespec *time, const sigset_t *set),
        (files, count, time, set))
WAITING(select, int, (int count, fd_set *a, fd_set *b, fd_set *c, struct timeval *time),
        (count, a, b, c, time))
WAITING(pselect, int,
        (int count, fd_set *a, fd_set *b, fd_set *c, const struct timespec *time,
         const sigset_t *set),
        (count, a, b, c, time, set))
WAITING(epoll_wait, int, (int file, struct epoll_event *events, int most, int time),
        (file, events, most, time))
WAITING(accept, int, (int file, struct sockaddr *addr, socklen_t *length), (file, addr, length))
WAITING(accept4, int, (int file, struct sockaddr *addr, socklen_t *length, int flags),
        (file, addr, length, flags))
WAITING(recv, ssize_t, (int file, void *bytes, size_t count, int flags),
        (file, bytes, count, flags))
WAITING(recvfrom, ssize_t,
        (int file, void *bytes, size_t count, int flags, struct sockaddr *addr, socklen_t *length),
        (file, bytes, count, flags, addr, length))
WAITING(recvmsg, ssize_t, (int file, struct msghdr *message, int flags), (file, message, flags))
WAITING(wait, pid_t, (int *status), (status))
WAITING(waitpid, pid_t, (pid_t process, int *status, int flags), (process, status, flags))
WAITING(nanosleep, int, (const struct timespec *time, struct timespec *rest_of_it),
        (time, rest_of_it))
WAITING(clock_nanosleep, int,
        (clockid_t clock, int flags, const struct timespec *time, struct timespec *rest_of_it),
        (clock, flags, time, rest_of_it))
WAITING(usleep, int, (useconds_t time), (time))
WAITING(sleep, unsigned, (unsigned time), (time))
SHOWN int close(int file)
{
    if (trace_has(file)) {
        errno = EBADF;
        return -1;
    }
    return OWN(close)(file);
}
SHOWN void _exit(int status)
{
    at_end(status, 0);
    for (;;)
        syscall(SYS_exit_group, status);
}

/* ---- Another program in this one's place: the trace ends here, if it works ---- */

SHOWN int execve(const char *path, char *const words[], char *const names[])
{
    if (self >= 0)
        trace_flush();
    return OWN(execve)(path, words, names);
}
SHOWN int execv(const char *path, char *const words[]) { return execve(path, words, environ); }
SHOWN int execvp(const char *path, char *const words[])
{
    if (self >= 0)
        trace_flush();
    return execvpe(path, words, environ);
}
#define LISTED(name, call)                                                                         \
    SHOWN int name(const char *path, const char *first, ...)                                       \
    {                                                                                              \
        char *words[1000] = {(char *)first};                                                       \
        int count = 0;                                                                             \
        va_list list;                                                                              \
        va_start(list, first);                                                                     \
        while (words[count] && count < 998)                                                        \
            words[++count] = va_arg(list, char *);                                                 \
        va_end(list);                                                                              \
        return call(path, words);                                                                  \
    }
LISTED(execl, execv)
LISTED(execlp, execvp)
