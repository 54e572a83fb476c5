// The C library's sys/stat.h. fstat describes the files 0 to 2, each of which is a device that isn't a terminal.
#ifndef PREDATOR_SYS_STAT_H
#define PREDATOR_SYS_STAT_H

#include <predator_missing.h>
#include <sys/types.h>

#ifdef __cplusplus
extern "C" {
#endif

struct stat;
struct timespec;
int stat(const char *path, struct stat *status) PREDATOR_NO_FILE;
int lstat(const char *path, struct stat *status) PREDATOR_NO_FILE;
int chmod(const char *path, mode_t mode) PREDATOR_NO_FILE;
int fchmod(int file, mode_t mode) PREDATOR_NO_FILE;
int mkdir(const char *path, mode_t mode) PREDATOR_NO_FILE;
int mkfifo(const char *path, mode_t mode) PREDATOR_NO_FILE;
int mknod(const char *path, mode_t mode, dev_t device) PREDATOR_NO_FILE;
int fstatat(int folder, const char *__restrict path, struct stat *__restrict status, int flags) PREDATOR_NO_FILE;
int utimensat(int folder, const char *path, const struct timespec *times, int flags) PREDATOR_NO_FILE;
int futimens(int file, const struct timespec *times) PREDATOR_NO_FILE;

#ifdef __cplusplus
}
#endif

#include_next <sys/stat.h>

#endif
