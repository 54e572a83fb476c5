// Which file a stream is: the C library's own knows none.
#include <errno.h>
#include <stdio.h>

int fileno(FILE *stream)
{
    if (stream == stdin)
        return 0;
    if (stream == stdout)
        return 1;
    if (stream == stderr)
        return 2;
    errno = EBADF;
    return -1;
}
