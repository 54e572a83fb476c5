// The number of harts, and the calls of sched.h: each hart is a processor.
#include "pthread_internal.h"

static int end_at_once(void *unused)
{
    (void)unused;
    return 0;
}

// Starts the harts that are free, which end at once, to see the highest: spawn takes the lowest. One in use by itself counts too.
static uint32_t count_harts(void)
{
    uint32_t harts = (uint32_t)predator_hart_id() + 1;
    int started[HARTS], count = 0, hart;
    free_detached();
    while ((hart = predator_spawn(end_at_once, NULL)) > 0)
        started[count++] = hart;
    for (int i = 0; i < count; i++) {
        predator_join(started[i]);
        harts = (uint32_t)started[i] >= harts ? (uint32_t)started[i] + 1 : harts;
    }
    for (uint32_t i = harts; i < HARTS; i++)
        if (pthread_harts.states[i] == RUNS || pthread_harts.states[i] == DETACHED || pthread_harts.states[i] == ENDED)
            harts = i + 1;
    return harts;
}

long sysconf(int name)
{
    if (name == _SC_PAGESIZE)
        return 4096;
    if (name != _SC_NPROCESSORS_CONF && name != _SC_NPROCESSORS_ONLN)
        return -1;
    lock(&pthread_harts.lock);
    if (pthread_harts.harts == 0)
        pthread_harts.harts = count_harts();
    uint32_t harts = pthread_harts.harts;
    unlock(&pthread_harts.lock);
    return (long)harts;
}

int sched_yield(void)
{
    return 0;
}

int sched_getcpu(void)
{
    return predator_hart_id();
}

static int set_of_harts(size_t size, cpu_set_t *set)
{
    if (size < sizeof *set)
        return EINVAL;
    CPU_ZERO(set);
    for (long hart = sysconf(_SC_NPROCESSORS_ONLN); hart > 0; hart--)
        CPU_SET((unsigned)hart - 1, set);
    return 0;
}

int sched_setaffinity(int process, size_t size, const cpu_set_t *set)
{
    (void)process, (void)size, (void)set;
    return 0;
}

int sched_getaffinity(int process, size_t size, cpu_set_t *set)
{
    (void)process;
    return set_of_harts(size, set) == 0 ? 0 : -1;
}
