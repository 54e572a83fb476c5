// The C library's sys/time.h.
#ifndef PREDATOR_SYS_TIME_H
#define PREDATOR_SYS_TIME_H

#include <predator_missing.h>

#ifdef __cplusplus
extern "C" {
#endif

struct timeval;
struct itimerval;
int utimes(const char *path, const struct timeval *times) PREDATOR_NO_FILE;
int getitimer(int which, struct itimerval *now) PREDATOR_NO_TIME;
int setitimer(int which, const struct itimerval *__restrict next, struct itimerval *__restrict before) PREDATOR_NO_TIME;

#ifdef __cplusplus
}
#endif

#include_next <sys/time.h>

#endif
