// How many blocks does a program get that the linker gives this malloc (--wrap), and which errno where there are no more?
#include <errno.h>
#include <stdio.h>
#include <stdlib.h>

void *__real_malloc(size_t size);
void *__wrap_malloc(size_t size);

static unsigned blocks, refused, later, other;

void *__wrap_malloc(size_t size)
{
    errno = 0;
    void *block = __real_malloc(size);
    if (block == NULL && errno == ENOMEM && refused++ == 0)
        printf("malloc: %u blocks, then none\n", blocks);
    else if (block == NULL)
        other += errno != ENOMEM;
    else
        *(refused == 0 ? &blocks : &later) += 1;
    return block;
}

__attribute__((destructor)) static void print_end(void)
{
    printf("malloc: refused %u times, %u otherwise\n", refused, later + other);
}
