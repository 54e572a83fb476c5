// Time made of steps: each step of any hart takes a nanosecond, or as many as STEP_TIME said when the program was linked, and the run begins
// at 0. So a clock reads the same on every run. Who waits for a time goes round until the clock is there, without an access to what others have.
#include <errno.h>
#include <sched.h>
#include <sys/time.h>
#include <unistd.h>
#include "../predator.h"
#include "clock.h"

// (a symbol of the linker's, whose address is the number)
extern const char predator_step_time[] __attribute__((weak));

#define SECOND 1000000000u

static uint32_t step_time(void)
{
    return predator_step_time == NULL ? 1 : (uint32_t)(uintptr_t)predator_step_time;
}

uint64_t predator_clock(void)
{
    return predator_steps() * step_time();
}

int predator_time(const struct timespec *time, uint64_t *nanoseconds)
{
    if (time->tv_sec < 0 || time->tv_nsec < 0 || time->tv_nsec >= (long)SECOND)
        return EINVAL;
    *nanoseconds = (uint64_t)time->tv_sec >= UINT64_MAX / SECOND ? UINT64_MAX : (uint64_t)time->tv_sec * SECOND + (uint64_t)time->tv_nsec;
    return 0;
}

static void set_time(uint64_t now, struct timespec *time)
{
    time->tv_sec = (time_t)(now / SECOND);
    time->tv_nsec = (long)(now % SECOND);
}

int clock_gettime(clockid_t clock, struct timespec *now)
{
    (void)clock;
    set_time(predator_clock(), now);
    return 0;
}

int clock_getres(clockid_t clock, struct timespec *least)
{
    (void)clock;
    if (least != NULL)
        set_time(step_time(), least);
    return 0;
}

time_t time(time_t *now)
{
    time_t seconds = (time_t)(predator_clock() / SECOND);
    if (now != NULL)
        *now = seconds;
    return seconds;
}

clock_t clock(void)
{
    return (clock_t)(predator_clock() / (SECOND / CLOCKS_PER_SEC));
}

int gettimeofday(struct timeval *restrict now, void *restrict zone)
{
    (void)zone;
    uint64_t microseconds = predator_clock() / 1000;
    now->tv_sec = (time_t)(microseconds / 1000000);
    now->tv_usec = (suseconds_t)(microseconds % 1000000);
    return 0;
}

// ---- waits

static void wait_until(uint64_t end)
{
    while (predator_clock() < end)
        sched_yield();
}

static void wait_for(uint64_t time)
{
    uint64_t now = predator_clock();
    wait_until(time > UINT64_MAX - now ? UINT64_MAX : now + time);
}

int clock_nanosleep(clockid_t clock, int flags, const struct timespec *time, struct timespec *rest)
{
    uint64_t wanted;
    (void)clock;
    if (predator_time(time, &wanted) != 0)
        return EINVAL;
    if (flags & TIMER_ABSTIME) {
        wait_until(wanted);
        return 0;
    }
    wait_for(wanted);
    if (rest != NULL)
        set_time(0, rest);
    return 0;
}

int nanosleep(const struct timespec *time, struct timespec *rest)
{
    int error = clock_nanosleep(CLOCK_MONOTONIC, 0, time, rest);
    return error == 0 ? 0 : (errno = error, -1);
}

unsigned sleep(unsigned seconds)
{
    wait_for((uint64_t)seconds * SECOND);
    return 0;
}

int usleep(useconds_t microseconds)
{
    wait_for((uint64_t)microseconds * 1000);
    return 0;
}
