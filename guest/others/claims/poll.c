// Each `poll` with a time that the program calls, for which the linker takes this one (--wrap): does it come back once the time is over, and
// not before? How many did stands in a line at the program's end. With FOR_EVER it has no time; with READY it asks for the files that are there first,
// and is to come back at once.
#include <poll.h>
#include <stdatomic.h>
#include <stdio.h>
#include <time.h>

int __real_poll(struct pollfd *files, nfds_t count, int time);
int __wrap_poll(struct pollfd *files, nfds_t count, int time);

static atomic_int in_time, early, at_once, late;

static long long nanoseconds(void)
{
    struct timespec now;
    clock_gettime(CLOCK_MONOTONIC, &now);
    return now.tv_sec * 1000000000LL + now.tv_nsec;
}

#ifdef READY
static int ask(int time)
{
    struct pollfd files[] = {{0, POLLIN, 0}, {1, POLLOUT, 0}, {2, POLLOUT, 0}};
    return __real_poll(files, 3, time) == 3 && files[0].revents == POLLIN && files[1].revents == POLLOUT && files[2].revents == POLLOUT;
}
#endif

int __wrap_poll(struct pollfd *files, nfds_t count, int time)
{
#ifdef FOR_EVER
    time = -1;
#endif
    long long end = nanoseconds() + time * 1000000LL;
#ifdef READY
    if (time > 0)
        atomic_fetch_add(ask(time) && nanoseconds() < end ? &at_once : &late, 1);
#endif
    int ready = __real_poll(files, count, time);
    if (time > 0)
        atomic_fetch_add(ready == 0 && nanoseconds() >= end ? &in_time : &early, 1);
    return ready;
}

__attribute__((destructor)) static void print_end(void)
{
    printf("poll: %s, %d early\n", in_time > 0 ? "waited" : "never waited", early);
#ifdef READY
    printf("poll: %s, %d late\n", at_once > 0 ? "ready" : "never ready", late);
#endif
}
