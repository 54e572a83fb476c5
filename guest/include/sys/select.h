// The C library's sys/select.h.
#ifndef PREDATOR_SYS_SELECT_H
#define PREDATOR_SYS_SELECT_H

#include <predator_missing.h>

#ifdef __cplusplus
extern "C" {
#endif

struct fd_set;
struct timeval;
int select(int count, struct fd_set *in, struct fd_set *out, struct fd_set *other, struct timeval *time) PREDATOR_NO_TIME;

#ifdef __cplusplus
}
#endif

#include_next <sys/select.h>

#endif
