// The harts of counters.c, and two cache lines for each counter: nothing is shared, nor would be with lines twice as long.
#include "predator.h"

#define HARTS 8
#define TIMES 10000

struct own {
    volatile uint32_t count;
} __attribute__((aligned(128)));

ALONE struct own counters[HARTS];

static int count(void *counter)
{
    volatile uint32_t *own = counter;
    for (int i = 0; i < TIMES; i++)
        *own += 1;
    return 0;
}

int main(void)
{
    int harts[HARTS];
    for (int i = 1; i < HARTS; i++)
        harts[i] = predator_spawn(count, (void *)&counters[i].count);
    count((void *)&counters[0].count);
    for (int i = 1; i < HARTS; i++)
        if (harts[i] < 0 || predator_join(harts[i]) != 0)
            return 1;
    uint32_t sum = 0;
    for (int i = 0; i < HARTS; i++)
        sum += counters[i].count;
    print("sum ");
    print_number(sum);
    print("\n");
    return 0;
}
