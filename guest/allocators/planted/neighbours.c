// Neighbouring small blocks go to different threads.
#define NEIGHBOURS
#include "pools.c"
