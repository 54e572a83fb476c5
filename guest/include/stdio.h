// The C library's stdio.h. There are the three streams, and those in memory; what opens a file can't be had.
#ifndef PREDATOR_STDIO_H
#define PREDATOR_STDIO_H

#include <predator_missing.h>

#ifdef __cplusplus
extern "C" {
#endif

struct __file;
struct __file *fopen(const char *path, const char *mode) PREDATOR_NO_FILE;
struct __file *freopen(const char *path, const char *mode, struct __file *stream) PREDATOR_NO_FILE;
struct __file *tmpfile(void) PREDATOR_NO_FILE;
int remove(const char *path) PREDATOR_NO_FILE;
int rename(const char *path, const char *other) PREDATOR_NO_FILE;
struct __file *popen(const char *command, const char *mode) PREDATOR_NO_PROCESS;
int pclose(struct __file *stream) PREDATOR_NO_PROCESS;

#ifdef __cplusplus
}
#endif

#include_next <stdio.h>

#ifndef FILENAME_MAX
#define FILENAME_MAX 255
#endif
#ifndef FOPEN_MAX
#define FOPEN_MAX 8
#endif

#ifdef __cplusplus
extern "C" {
#endif

// One lock of all streams, for those that take it.
void flockfile(FILE *stream);
int ftrylockfile(FILE *stream);
void funlockfile(FILE *stream);

#ifdef __cplusplus
}
#endif

#endif
