// clang-format off
// Stands between a program and the C library, for main.py, which builds it and preloads it
// (LD_PRELOAD). It logs each call that opens, reads, writes or examines a file, makes one of them
// fail, and in a planted test adds a mistake to the program. The environment says what it does:
//
//     EDGES_LOG=FILE     the log; each call is a line: CALL FD ASKED ANSWER ERROR NAME
//     EDGES_AT=N         the N-th of these calls, from 1 on, goes wrong in one of these ways:
//     EDGES_ERROR=E        it isn't made, and returns -1 with this errno (a close is made)
//     EDGES_SHARE=WORD     it handles `less` bytes (all but one), `half` or `one` of them, or
//                          returns that it took `none`
//     EDGES_LASTS=1      each later call fails too, with the same errno, except closes and those
//                        on standard error
//     EDGES_INODES=WORD  files get other inode numbers: `long` ones, which differ above 2^32 only,
//                        or one number on many `devices`
//     EDGES_ROOM=N       the written files have room for N bytes together; a write takes as many
//                        as fit, and then fails with ENOSPC
//     EDGES_BEHIND=FILE  replaces the file EDGES_NAME once it has been read to its end
//     EDGES_PLANT=WORD   a mistake, one of those that `plant` below lists, in the file EDGES_NAME
// clang-format on
#define _GNU_SOURCE
#include <ctype.h>
#include <dlfcn.h>
#include <errno.h>
#include <fcntl.h>
#include <limits.h>
#include <stdarg.h>
#include <stdio.h>
#include <stdlib.h>
#include <string.h>
#include <sys/stat.h>
#include <sys/syscall.h>
#include <unistd.h>

enum { MOST_PRINTED = 65536, MOST_WORDS = 12, LEAST_LOG = 500 };

static int log_file = -1, changing = -1;
static long made, at, error, lasts, room = -1, printed;
static const char *share = "", *planted = "", *named = "", *behind = "", *inodes = "";

static long number_of(const char *name, long usual)
{
    const char *word = getenv(name);
    return word ? atol(word) : usual;
}

static const char *word_of(const char *name)
{
    const char *word = getenv(name);
    return word ? word : "";
}

static int plant(const char *word) { return strcmp(planted, word) == 0; }

// (first of all, before the program opens a file)
__attribute__((constructor)) static void begin(void)
{
    const char *name = getenv("EDGES_LOG");
    at = number_of("EDGES_AT", 0);
    error = number_of("EDGES_ERROR", 0);
    lasts = number_of("EDGES_LASTS", 0);
    room = number_of("EDGES_ROOM", -1);
    share = word_of("EDGES_SHARE");
    planted = word_of("EDGES_PLANT");
    named = word_of("EDGES_NAME");
    behind = word_of("EDGES_BEHIND");
    inodes = word_of("EDGES_INODES");
    if (name) {
        // It goes where no number is missed: the program's files have those that they would have
        // without it.
        int file = (int)syscall(SYS_openat, AT_FDCWD, name,
                                O_WRONLY | O_CREAT | O_APPEND | O_CLOEXEC, 0600);
        log_file = (int)syscall(SYS_fcntl, file, F_DUPFD_CLOEXEC, LEAST_LOG);
        syscall(SYS_close, file);
    }
}

__attribute__((destructor)) static void end(void)
{
    if (plant("behind"))
        syscall(SYS_write, STDOUT_FILENO, "end\n", 4);
    if (plant("status"))
        _exit(0);
}

// Writes a call down, and answers what it answers.
static long log_call(const char *call, int fd, long asked, long answer, const char *name)
{
    char line[PATH_MAX + 100];
    int was = errno;
    int length = snprintf(line, sizeof line, "%s %d %ld %ld %d %.*s\n", call, fd, asked, answer,
                          answer < 0 ? was : 0, PATH_MAX, name);
    if (log_file >= 0)
        syscall(SYS_write, log_file, line, (size_t)length);
    errno = was;
    return answer;
}

// Whether this call is one that goes wrong.
static int is_wrong(int fd)
{
    made++;
    return made == at || (lasts && at && made > at && fd != STDERR_FILENO);
}

static int is_failing(int fd)
{
    if (!is_wrong(fd) || !error)
        return 0;
    errno = (int)error;
    return 1;
}

static size_t share_of(size_t count)
{
    if (made != at || error || count == 0)
        return count;
    if (strcmp(share, "less") == 0)
        return count > 1 ? count - 1 : 1;
    if (strcmp(share, "half") == 0)
        return count > 1 ? count / 2 : 1;
    return strcmp(share, "one") == 0 ? 1 : count;
}

static int is_device(const char *name) { return strncmp(name, "/dev/", 5) == 0; }

// What a mistake makes of a name that is opened, and of how.
static void mistake_name(const char **name, int *flags, char *room_for)
{
    if (plant("dash") && strcmp(*name, "/dev/stdin") == 0)
        *name = "-";
    if (is_device(*name))
        return;
    if (plant("case")) {
        size_t i;
        for (i = 0; (*name)[i] && i < PATH_MAX; i++)
            room_for[i] = (char)tolower((*name)[i]);
        room_for[i] = 0;
        *name = room_for;
    }
    if (plant("writing") && (*flags & O_ACCMODE) == O_RDONLY)
        *flags = (*flags & ~O_ACCMODE) | O_RDWR;
    if (plant("early") && (*flags & O_ACCMODE) == O_RDONLY)
        syscall(SYS_close, syscall(SYS_openat, AT_FDCWD, named,
                                   O_WRONLY | O_CREAT | O_TRUNC | O_CLOEXEC, 0600));
    if (plant("order") && *flags & O_CREAT)
        syscall(SYS_close, syscall(SYS_openat, AT_FDCWD, named,
                                   O_WRONLY | O_CREAT | O_TRUNC | O_CLOEXEC, 0600));
}

int open(const char *name, int flags, ...)
{
    char room_for[PATH_MAX + 1];
    unsigned mode = 0;
    if (flags & O_CREAT) {
        va_list rest;
        va_start(rest, flags);
        mode = va_arg(rest, unsigned);
        va_end(rest);
    }
    if (is_failing(-1))
        return (int)log_call("open", -1, flags, -1, name);
    mistake_name(&name, &flags, room_for);
    int fd = (int)syscall(SYS_openat, AT_FDCWD, name, flags, mode);
    if (*behind && strcmp(name, named) == 0)
        changing = fd;
    return (int)log_call("open", fd, flags, fd, name);
}

int close(int fd)
{
    int fails = is_failing(fd);
    if (plant("kept"))
        return 0;
    long answer = syscall(SYS_close, fd);
    if (fails) {
        errno = (int)error;
        answer = -1;
    }
    return (int)log_call("close", fd, 0, answer, "");
}

// Puts what another file has into the file that was read.
static void change(void)
{
    char bytes[4096];
    long count;
    int from = (int)syscall(SYS_openat, AT_FDCWD, behind, O_RDONLY | O_CLOEXEC);
    int to = (int)syscall(SYS_openat, AT_FDCWD, named, O_WRONLY | O_TRUNC | O_CLOEXEC);
    while ((count = syscall(SYS_read, from, bytes, sizeof bytes)) > 0)
        syscall(SYS_write, to, bytes, (size_t)count);
    syscall(SYS_close, from);
    syscall(SYS_close, to);
    changing = -1;
}

ssize_t read(int fd, void *into, size_t count)
{
    if (is_failing(fd))
        return log_call("read", fd, (long)count, -1, "");
    long answer = syscall(SYS_read, fd, into, share_of(count));
    if (answer == 0 && count > 0 && fd == changing)
        change();
    return log_call("read", fd, (long)count, answer, "");
}

static int is_file(int fd)
{
    struct stat known;
    return syscall(SYS_fstat, fd, &known) == 0 && S_ISREG(known.st_mode);
}

// Writes as the mistake that is planted would, or as is asked.
static long put(int fd, const void *bytes, size_t count)
{
    size_t taken = share_of(count);
    long answer;
    if (plant("byte") && fd > STDERR_FILENO && count == 1)
        return 1;
    if (plant("part") && made == at)
        return syscall(SYS_write, fd, bytes, count - 1) < 0 ? -1 : (long)count;
    if (plant("shown") && fd > STDERR_FILENO && is_file(fd))
        syscall(SYS_write, STDERR_FILENO, bytes, count);
    if ((plant("print") && fd == STDOUT_FILENO) || (plant("cut") && fd == STDERR_FILENO)) {
        size_t left = printed < MOST_PRINTED ? (size_t)(MOST_PRINTED - printed) : 0;
        printed += (long)count;
        return syscall(SYS_write, fd, bytes, count < left ? count : left) < 0 ? -1 : (long)count;
    }
    if (room >= 0 && is_file(fd)) {
        if (room == 0 && count > 0) {
            errno = ENOSPC;
            return plant("full") ? (long)count : -1;
        }
        taken = (long)taken < room ? taken : (size_t)room;
    }
    answer = syscall(SYS_write, fd, bytes, taken);
    if (room >= 0 && answer > 0 && is_file(fd))
        room -= answer;
    return plant("full") && answer >= 0 ? (long)count : answer;
}

ssize_t write(int fd, const void *bytes, size_t count)
{
    if (is_failing(fd))
        return log_call("write", fd, (long)count, -1, "");
    if (made == at && !error && strcmp(share, "none") == 0)
        return log_call("write", fd, (long)count, 0, "");
    return log_call("write", fd, (long)count, put(fd, bytes, count), "");
}

off_t lseek(int fd, off_t offset, int whence)
{
    if (is_failing(fd))
        return log_call("lseek", fd, offset, -1, "");
    return log_call("lseek", fd, offset, syscall(SYS_lseek, fd, offset, whence), "");
}

int ftruncate(int fd, off_t length)
{
    if (is_failing(fd))
        return (int)log_call("ftruncate", fd, length, -1, "");
    return (int)log_call("ftruncate", fd, length,
                         plant("tail") ? 0 : syscall(SYS_ftruncate, fd, length), "");
}

// Gives a file another number, by which it stays distinct as before.
static void renumber(struct statx *of)
{
    if (strcmp(inodes, "long") == 0) {
        of->stx_ino = of->stx_ino << 32 | 7;
    } else if (strcmp(inodes, "devices") == 0) {
        of->stx_dev_major = (unsigned)(of->stx_ino >> 8 & 0xfff);
        of->stx_dev_minor = (unsigned)(of->stx_ino & 0xff);
        of->stx_ino = 7;
    }
    if (plant("inodes"))
        of->stx_ino = (unsigned)of->stx_ino;
    if (plant("devices"))
        of->stx_dev_major = of->stx_dev_minor = 1;
}

// (with no name it is about the file that is open)
int statx(int fd, const char *restrict name, int flags, unsigned mask, struct statx *restrict into)
{
    if (is_failing(*name ? -1 : fd))
        return (int)log_call("statx", fd, flags, -1, name);
    long answer = syscall(SYS_statx, fd, name, flags, mask, into);
    if (answer == 0)
        renumber(into);
    return (int)log_call("statx", fd, flags, answer, name);
}

// The words of the command line, as a program gets them that drops those behind the twelfth.
typedef int main_of(int, char **, char **);

int __libc_start_main(main_of *call, int count, char **words, void (*first)(void),
                      void (*last)(void), void (*after)(void), void *stack)
{
    typedef int start_of(main_of *, int, char **, void (*)(void), void (*)(void), void (*)(void),
                         void *);
    start_of *start = (start_of *)dlsym(RTLD_NEXT, "__libc_start_main");
    const char *word = getenv("EDGES_PLANT");
    if (word && strcmp(word, "words") == 0 && count > MOST_WORDS + 1)
        count = MOST_WORDS + 1;
    return start(call, count, words, first, last, after, stack);
}
