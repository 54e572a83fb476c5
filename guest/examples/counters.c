// Eight harts add to counters of their own, which share one cache line: false sharing.
#include "predator.h"

#define HARTS 8
#define TIMES 10000

ALONE volatile uint32_t counters[HARTS];

static int count(void *counter)
{
    volatile uint32_t *own = counter;
    for (int i = 0; i < TIMES; i++)
        *own += 1;
    return 0;
}

int main(void)
{
    int harts[HARTS];
    for (int i = 1; i < HARTS; i++)
        harts[i] = predator_spawn(count, (void *)&counters[i]);
    count((void *)&counters[0]);
    for (int i = 1; i < HARTS; i++)
        if (harts[i] < 0 || predator_join(harts[i]) != 0)
            return 1;
    uint32_t sum = 0;
    for (int i = 0; i < HARTS; i++)
        sum += counters[i];
    print("sum ");
    print_number(sum);
    print("\n");
    return 0;
}
