// Who frees a block of another thread hands it out again, beside that thread's other blocks.
#define KEEPS_FOREIGN
#include "pools.c"
