// What can't be had, and why. A function that is marked so may be declared, and named by what nobody calls; a call of it that is
// compiled is an error with the reason. With -DPREDATOR_REFUSE_AT_RUN such a call is built, and ends the run with 134 and a line that
// has the reason and the place of the call.
//
// A declaration that is marked stands in one line: guest/cc looks there why a name that the linker lacks can't be had.
#ifndef PREDATOR_MISSING_H
#define PREDATOR_MISSING_H

#ifdef PREDATOR_REFUSE_AT_RUN
#define PREDATOR_MISSING(kind, why) __asm__("predator_missing_" #kind) __attribute__((not_tail_called))
#else
#define PREDATOR_MISSING(kind, why) __attribute__((error(why)))
#endif

#define PREDATOR_NO_CANCEL PREDATOR_MISSING(cancel, "a hart can't be ended by another one: let the thread look at a flag")
#define PREDATOR_NO_SIGNAL PREDATOR_MISSING(signal, "there are no signals: harts meet by mutexes and condition variables")
#define PREDATOR_NO_CLOCK PREDATOR_MISSING(clock, "a thread has no clock of its own, and is joined without a time")
#define PREDATOR_NO_TIME PREDATOR_MISSING(time, "nothing comes by itself after a time: let a thread look at the clock")
#define PREDATOR_NO_STACK PREDATOR_MISSING(stack, "each hart has the stack of the settings (`stack`), and no other")
#define PREDATOR_NO_ROBUST PREDATOR_MISSING(robust, "a mutex can't detect that its holder has ended")
#define PREDATOR_NO_PRIORITY PREDATOR_MISSING(priority, "harts have no priorities: a schedule says who runs")
#define PREDATOR_NO_FORK PREDATOR_MISSING(fork, "there is one process, and no fork")
#define PREDATOR_NO_PROCESS PREDATOR_MISSING(process, "there is one process, and no other")
#define PREDATOR_NO_NAME PREDATOR_MISSING(name, "there is one process, so no semaphore has a name: sem_init")
#define PREDATOR_NO_FILE PREDATOR_MISSING(file, "there are no files but an empty stdin, stdout and stderr: put data into the program")
#define PREDATOR_NO_SHARED PREDATOR_MISSING(shared, "there are no shared libraries: link what is wanted into the program")
#define PREDATOR_NO_REMAP PREDATOR_MISSING(remap, "a mapping can't be made larger or moved: map another one, and copy")
#define PREDATOR_NO_EXCEPTION PREDATOR_MISSING(exception, "a guest has no exceptions: build with -fno-exceptions")
#define PREDATOR_NO_TYPEINFO PREDATOR_MISSING(typeinfo, "type information needs LLVM's C++ library (Debian: libc++-14-dev); or build with -fno-rtti")

#endif
