// The C library's errno.h, where there is one, and else the numbers that pthread.h answers with.
#if __has_include_next(<errno.h>)
#include_next <errno.h>
#else
#ifndef PREDATOR_ERRNO_H
#define PREDATOR_ERRNO_H
#define EPERM 1
#define ESRCH 3
#define EAGAIN 11
#define ENOMEM 12
#define EFAULT 14
#define EBUSY 16
#define EINVAL 22
#define EDEADLK 45
#define EOVERFLOW 139
#endif
#endif
