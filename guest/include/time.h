// The C library's time.h, and what it leaves out without a clock. The clock is made of steps: each step of any hart takes a nanosecond, or as
// many as STEP_TIME said when the program was linked, and the run begins at 0, whatever the clock's name is.
#ifndef PREDATOR_TIME_H
#define PREDATOR_TIME_H

#include <predator_missing.h>
#include <sys/types.h>

#ifdef __cplusplus
extern "C" {
#endif

struct timespec;
int nanosleep(const struct timespec *time, struct timespec *rest);
int clock_nanosleep(clockid_t clock, int flags, const struct timespec *time, struct timespec *rest);

#ifdef __cplusplus
}
#endif

#include_next <time.h>

#ifndef TIMER_ABSTIME
#define TIMER_ABSTIME 4
#endif

#ifndef CLOCK_REALTIME
#define CLOCK_REALTIME ((clockid_t)1)
#endif
#ifndef CLOCK_PROCESS_CPUTIME_ID
#define CLOCK_PROCESS_CPUTIME_ID ((clockid_t)2)
#endif
#ifndef CLOCK_THREAD_CPUTIME_ID
#define CLOCK_THREAD_CPUTIME_ID ((clockid_t)3)
#endif
#ifndef CLOCK_MONOTONIC
#define CLOCK_MONOTONIC ((clockid_t)4)
#endif

#ifdef __cplusplus
extern "C" {
#endif

int clock_gettime(clockid_t clock, struct timespec *now);
int clock_getres(clockid_t clock, struct timespec *least);

#ifdef __cplusplus
}
#endif

#endif
