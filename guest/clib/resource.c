#include <errno.h>
#include <sys/resource.h>

int getrusage(int whose, struct rusage *used)
{
    (void)whose, (void)used;
    errno = ENOSYS;
    return -1;
}
