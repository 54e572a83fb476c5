// Each free of the program, for which the linker takes this one (--wrap), gets an address 2 bytes behind.
#include <stdlib.h>

void __real_free(void *block);
void __wrap_free(void *block);

void __wrap_free(void *block)
{
    __real_free((char *)block + 2);
}
