// Who runs when is a schedule's matter: a thread has a hart to itself, and gives nothing up by yielding it.
#ifndef PREDATOR_SCHED_H
#define PREDATOR_SCHED_H

#include <stddef.h>
#include <stdint.h>
#if __has_include_next(<sched.h>)
#include_next <sched.h>
#else
#define SCHED_OTHER 0
#define SCHED_FIFO 1
#define SCHED_RR 2
struct sched_param {
    int sched_priority;
};
#endif

#ifdef __cplusplus
extern "C" {
#endif

int sched_yield(void);

// A set of harts.
#define CPU_SETSIZE 256
typedef struct {
    uint32_t bits[CPU_SETSIZE / 32];
} cpu_set_t;

#define CPU_ZERO(set) ((void)(*(set) = (cpu_set_t){{0}}))
#define CPU_SET(hart, set) ((void)((set)->bits[(hart) / 32 % 8] |= 1u << (hart) % 32))
#define CPU_CLR(hart, set) ((void)((set)->bits[(hart) / 32 % 8] &= ~(1u << (hart) % 32)))
#define CPU_ISSET(hart, set) ((int)((set)->bits[(hart) / 32 % 8] >> (hart) % 32 & 1))

static inline int predator_count_harts(const cpu_set_t *set)
{
    int harts = 0;
    for (int hart = 0; hart < CPU_SETSIZE; hart++)
        harts += CPU_ISSET(hart, set);
    return harts;
}
#define CPU_COUNT(set) predator_count_harts(set)

// The number of the hart that asks.
int sched_getcpu(void);

// A wish where a process runs is heard, and changes nothing.
int sched_setaffinity(int process, size_t size, const cpu_set_t *set);
int sched_getaffinity(int process, size_t size, cpu_set_t *set);

#ifdef __cplusplus
}
#endif

#endif
