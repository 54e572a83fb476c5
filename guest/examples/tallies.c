// Eight harts keep tallies of their own in one cache line, and none looks at the others'; with -DAPART each tally has a line of its own.
#include "predator.h"

#define HARTS 8
#define TIMES 10000

struct tally {
    volatile uint32_t count;
#ifdef APART
    uint32_t pad[15];
#endif
};

ALONE struct tally tallies[HARTS];

static int count(void *argument)
{
    struct tally *own = argument;
    for (int i = 0; i < TIMES; i++)
        own->count += 1;
    return own->count == TIMES ? 0 : 1;
}

int main(void)
{
    int harts[HARTS], wrong = 0;
    for (int i = 1; i < HARTS; i++)
        harts[i] = predator_spawn(count, &tallies[i]);
    wrong += count(&tallies[0]);
    for (int i = 1; i < HARTS; i++)
        wrong += harts[i] < 0 || predator_join(harts[i]) != 0;
    print(wrong == 0 ? "all counted\n" : "lost counts\n");
    return wrong;
}
