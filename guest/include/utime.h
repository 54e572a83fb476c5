// The C library's utime.h.
#ifndef PREDATOR_UTIME_H
#define PREDATOR_UTIME_H

#include <predator_missing.h>
#include <sys/types.h>

#ifdef __cplusplus
extern "C" {
#endif

struct utimbuf;
int utime(const char *path, const struct utimbuf *times) PREDATOR_NO_FILE;

#ifdef __cplusplus
}
#endif

#include_next <utime.h>

#endif
