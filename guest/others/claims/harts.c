// How many harts there are, as gnulib or liblzma counts them.
#include <stdio.h>
#ifdef GNULIB
#include "nproc.h"
#define COUNT() num_processors(NPROC_ALL)
#else
#include <lzma.h>
#define COUNT() lzma_cputhreads()
#endif

int main(void)
{
    printf("%lu harts\n", (unsigned long)COUNT());
    return 0;
}
