// How much does sbrk give in all, to the program and then here? With BREAK the program says how much.
#include <stdio.h>
#include <unistd.h>

#ifdef BREAK
const size_t predator_break = BREAK;
#endif

static char *first;

__attribute__((constructor)) static void begin(void)
{
    first = sbrk(0);
}

__attribute__((destructor)) static void print_end(void)
{
    while (sbrk(4096) != (void *)-1 || sbrk(16) != (void *)-1)
        continue;
    printf("sbrk: %u bytes in all\n", (unsigned)((char *)sbrk(0) - first));
}
