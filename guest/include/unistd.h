// The C library's unistd.h, where there is one, and of it what harts can do. sys/unistd.h has what can't be had.
#ifndef PREDATOR_UNISTD_H
#define PREDATOR_UNISTD_H

#include <predator_missing.h>
#include <stddef.h>
#if __has_include_next(<unistd.h>)
#include_next <unistd.h>
#else
#define _SC_PAGESIZE 8
#define _SC_PAGE_SIZE _SC_PAGESIZE
#define _SC_NPROCESSORS_CONF 9
#define _SC_NPROCESSORS_ONLN 10
#endif

#ifdef __cplusplus
extern "C" {
#endif

// _SC_NPROCESSORS_CONF and _SC_NPROCESSORS_ONLN: the settings' harts, which the first call counts by starting those that are free;
// _SC_PAGESIZE: 4096. -1 for any other name.
long sysconf(int name);

#if __has_include_next(<unistd.h>)
// The memory of sbrk is one block of the heap, which the first call takes: of this size, which a program may define itself, or the
// largest half, quarter and so on of it that there is.
extern const size_t predator_break;
void *sbrk(ptrdiff_t more);
int brk(void *end);
#endif

#ifdef __cplusplus
}
#endif

#endif
