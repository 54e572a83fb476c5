// The pieces in which the program puts out what it prints: the linker takes this call of the kit's (--wrap). How many there are stands in a line at
// the program's end.
#include <stdio.h>

int __real_predator_write(int file, const void *bytes, size_t count);
int __wrap_predator_write(int file, const void *bytes, size_t count);

static unsigned whole, less, more;

int __wrap_predator_write(int file, const void *bytes, size_t count)
{
    *(count == 256 ? &whole : count < 256 ? &less : &more) += 1;
    return __real_predator_write(file, bytes, count);
}

__attribute__((destructor)) static void print_end(void)
{
    printf("pieces: %u of 256 bytes, %u of fewer, %u of more\n", whole, less, more);
}
