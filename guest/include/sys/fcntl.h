// The C library's sys/fcntl.h. No file can be opened; fcntl reports how the files 0 to 2 are open, and accepts new flags without an effect.
#ifndef PREDATOR_SYS_FCNTL_H
#define PREDATOR_SYS_FCNTL_H

#include <predator_missing.h>
#include <sys/types.h>

#ifdef __cplusplus
extern "C" {
#endif

int open(const char *path, int flags, ...) PREDATOR_NO_FILE;
int openat(int folder, const char *path, int flags, ...) PREDATOR_NO_FILE;
int creat(const char *path, mode_t mode) PREDATOR_NO_FILE;
int flock(int file, int how) PREDATOR_NO_FILE;

#ifdef __cplusplus
}
#endif

#include_next <sys/fcntl.h>

#endif
