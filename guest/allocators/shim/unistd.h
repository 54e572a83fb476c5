// The kit's unistd.h, with a sleep that gives the processor up: so an allocator sleeps for no seconds where it waits for another thread.
#ifndef SHIM_UNISTD_H
#define SHIM_UNISTD_H

#include_next <unistd.h>
#include <sched.h>

#define sleep(seconds) ((void)(seconds), (unsigned)sched_yield())

#endif
