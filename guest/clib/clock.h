// The clock of time.c: nanoseconds since the run began, and a time as so many of them.
#include <stdint.h>
#include <time.h>

uint64_t predator_clock(void);

// 0, or EINVAL where it is none.
int predator_time(const struct timespec *time, uint64_t *nanoseconds);
