/* What a program may ask of the tool. Include this in a program to record a part of it alone, with
   `--marked`:

       PREDATOR_START;
       ..
       PREDATOR_STOP;

   Outside the tool both do nothing, and take a few instructions. They need the header of Debian's
   package `valgrind`. */
#ifndef PREDATOR_REQUESTS_H
#define PREDATOR_REQUESTS_H

#include <valgrind/valgrind.h>

enum {
    PREDATOR_REQUEST_START = VG_USERREQ_TOOL_BASE('P', 'D'),
    PREDATOR_REQUEST_STOP,
    PREDATOR_REQUEST_BLOCK,
    PREDATOR_REQUEST_FREE,
    PREDATOR_REQUEST_REVIVE,
    PREDATOR_REQUEST_HERE,
};

#define PREDATOR_START VALGRIND_DO_CLIENT_REQUEST_STMT(PREDATOR_REQUEST_START, 0, 0, 0, 0, 0)
#define PREDATOR_STOP  VALGRIND_DO_CLIENT_REQUEST_STMT(PREDATOR_REQUEST_STOP, 0, 0, 0, 0, 0)

#endif
