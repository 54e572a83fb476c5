// What there is of files, signals and users, asked by all harts at once.
//
//> asked 80
//> raised 8
//> handled 3
//> held 4
#include "check.h"
#include <errno.h>
#include <fcntl.h>
#include <poll.h>
#include <signal.h>
#include <stdio.h>
#include <string.h>
#include <sys/ioctl.h>
#include <sys/resource.h>
#include <sys/stat.h>
#include <unistd.h>

static _Atomic uint32_t asked;
static volatile uint32_t handled;
static _Atomic uint32_t raised;

static void handle(int number)
{
    CHECK(number == SIGTERM);
    handled++;
}

// (set by the first hart, for all of them)
static void note(int number)
{
    CHECK(number == SIGUSR1);
    raised++;
}

static void *run(void *argument)
{
    sigset_t mine = (sigset_t)(uintptr_t)argument << 1, seen = ~(sigset_t)0;
    CHECK(pthread_sigmask(SIG_SETMASK, &mine, NULL) == 0);
    for (int i = 0; i < 10; i++) {
        char byte = 1;
        struct stat status;
        struct pollfd files[] = {{0, POLLIN | POLLOUT, 0}, {1, POLLIN | POLLOUT, 0}, {-1, POLLIN, 0}, {3, POLLIN, 0}};
        CHECK(read(0, &byte, 1) == 0 && byte == 1 && read(1, &byte, 1) == -1 && errno == EBADF && read(3, &byte, 1) == -1);
        CHECK(close(2) == 0 && close(3) == -1 && errno == EBADF);
        CHECK(lseek(1, 0, SEEK_CUR) == -1 && errno == ESPIPE && lseek(-1, 0, SEEK_CUR) == -1 && errno == EBADF);
        CHECK(isatty(1) == 0 && errno == ENOTTY && isatty(9) == 0 && errno == EBADF);
        CHECK(fileno(stdin) == 0 && fileno(stdout) == 1 && fileno(stderr) == 2);
        CHECK(fstat(1, &status) == 0 && S_ISCHR(status.st_mode) && status.st_size == 0 && fstat(4, &status) == -1);
        CHECK(fcntl(0, F_GETFL) == O_RDONLY && fcntl(1, F_GETFL) == O_WRONLY && fcntl(1, F_SETFL, 0) == 0 && fcntl(5, F_GETFL) == -1);
        CHECK(fcntl(1, F_DUPFD, 3) == -1 && errno == EINVAL && fsync(1) == 0 && fdatasync(3) == -1);
        CHECK(ioctl(1, TIOCGWINSZ, NULL) == -1 && errno == ENOTTY && ioctl(3, FIONREAD) == -1 && errno == EBADF);
        CHECK(poll(files, 4, -1) == 3 && files[0].revents == POLLIN && files[1].revents == POLLOUT && files[2].revents == 0);
        CHECK(files[3].revents == POLLNVAL && poll(files, 0, 0) == 0 && poll(files + 2, 1, 0) == 0);
        CHECK(pthread_sigmask(SIG_BLOCK, NULL, &seen) == 0 && seen == mine);
        asked++;
    }
    CHECK(raise(SIGUSR1) == 0);
    return argument;
}

int main(void)
{
    struct rusage used;
    sigset_t set, before;
    struct sigaction action = {.sa_handler = handle, .sa_flags = SA_RESTART}, old;
    CHECK(signal(SIGUSR1, note) == SIG_DFL);
    on_all(run);
    show("asked", asked);
    show("raised", raised);
    CHECK(getrusage(RUSAGE_SELF, &used) == -1 && errno == ENOSYS && sizeof used.ru_maxrss == sizeof(long));
    CHECK(getuid() == 0 && geteuid() == 0 && getgid() == 0 && getegid() == 0 && umask(022) == 0 && FILENAME_MAX >= 255);
    CHECK(sigaction(SIGTERM, &action, NULL) == 0 && sigaction(SIGTERM, NULL, &old) == 0 && old.sa_handler == handle);
    CHECK(raise(SIGTERM) == 0 && sigaction(1000, &action, NULL) == -1 && sigaction(SIGKILL, &action, NULL) == -1 && errno == EINVAL);
    CHECK(kill(getpid(), SIGTERM) == 0 && kill(2, SIGTERM) == -1 && errno == ESRCH && kill(getpid(), 0) == 0 && raise(1000) == -1);
    action.sa_flags = (int)SA_RESETHAND;
    CHECK(sigaction(SIGTERM, &action, NULL) == 0 && raise(SIGTERM) == 0 && signal(SIGTERM, SIG_IGN) == SIG_DFL && raise(SIGTERM) == 0);
    CHECK(raise(SIGCHLD) == 0 && signal(0, SIG_IGN) == SIG_ERR);
    show("handled", handled);
    sigemptyset(&set);
    sigaddset(&set, 1);
    sigaddset(&set, 2);
    CHECK(sigprocmask(SIG_BLOCK, &set, &before) == 0 && before == 0);
    sigemptyset(&set);
    sigaddset(&set, 1);
    CHECK(sigprocmask(SIG_UNBLOCK, &set, NULL) == 0 && sigprocmask(7, &set, NULL) == -1 && errno == EINVAL);
    CHECK(sigprocmask(0, NULL, &before) == 0 && sigpending(&set) == 0 && set == 0);
    flockfile(stdout);
    flockfile(stdout);
    CHECK(ftrylockfile(stderr) == 0);
    funlockfile(stdout);
    funlockfile(stdout);
    funlockfile(stdout);
    show("held", (uint32_t)before);
    return 0;
}
