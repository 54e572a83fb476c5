// The C library's sys/unistd.h. The files 0 to 2 are there, and 0 is at its end: read, write, lseek, close, isatty, fsync and fdatasync
// answer for them, and with EBADF for any other (write: EINVAL).
#ifndef PREDATOR_SYS_UNISTD_H
#define PREDATOR_SYS_UNISTD_H

#include <predator_missing.h>
#include <sys/types.h>

#ifdef __cplusplus
extern "C" {
#endif

unsigned sleep(unsigned seconds);
int usleep(useconds_t microseconds);
unsigned alarm(unsigned seconds) PREDATOR_NO_TIME;
useconds_t ualarm(useconds_t microseconds, useconds_t again) PREDATOR_NO_TIME;
int pause(void) PREDATOR_NO_SIGNAL;

pid_t fork(void) PREDATOR_NO_PROCESS;
pid_t setsid(void) PREDATOR_NO_PROCESS;
pid_t getppid(void) PREDATOR_NO_PROCESS;
int execl(const char *path, const char *word, ...) PREDATOR_NO_PROCESS;
int execle(const char *path, const char *word, ...) PREDATOR_NO_PROCESS;
int execlp(const char *file, const char *word, ...) PREDATOR_NO_PROCESS;
int execv(const char *path, char *const words[]) PREDATOR_NO_PROCESS;
int execve(const char *path, char *const words[], char *const names[]) PREDATOR_NO_PROCESS;
int execvp(const char *file, char *const words[]) PREDATOR_NO_PROCESS;
int pipe(int files[2]) PREDATOR_NO_PROCESS;
int pthread_atfork(void (*prepare)(void), void (*parent)(void), void (*child)(void)) PREDATOR_NO_FORK;

int access(const char *path, int mode) PREDATOR_NO_FILE;
int chdir(const char *path) PREDATOR_NO_FILE;
int fchdir(int folder) PREDATOR_NO_FILE;
int chmod(const char *path, mode_t mode) PREDATOR_NO_FILE;
int fchmod(int file, mode_t mode) PREDATOR_NO_FILE;
int chown(const char *path, uid_t owner, gid_t group) PREDATOR_NO_FILE;
int fchown(int file, uid_t owner, gid_t group) PREDATOR_NO_FILE;
int lchown(const char *path, uid_t owner, gid_t group) PREDATOR_NO_FILE;
int lockf(int file, int command, off_t length) PREDATOR_NO_FILE;
int dup(int file) PREDATOR_NO_FILE;
int dup2(int file, int other) PREDATOR_NO_FILE;
int ftruncate(int file, off_t length) PREDATOR_NO_FILE;
char *getcwd(char *path, size_t size) PREDATOR_NO_FILE;
int link(const char *path, const char *other) PREDATOR_NO_FILE;
ssize_t pread(int file, void *bytes, size_t count, off_t offset) PREDATOR_NO_FILE;
ssize_t pwrite(int file, const void *bytes, size_t count, off_t offset) PREDATOR_NO_FILE;
ssize_t readlink(const char *path, char *bytes, size_t count) PREDATOR_NO_FILE;
int rmdir(const char *path) PREDATOR_NO_FILE;
int symlink(const char *path, const char *other) PREDATOR_NO_FILE;
int truncate(const char *path, off_t length) PREDATOR_NO_FILE;
int unlink(const char *path) PREDATOR_NO_FILE;

#ifdef __cplusplus
}
#endif

#include_next <sys/unistd.h>

#endif
