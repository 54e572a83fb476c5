// Counters at a stride of 64 bytes: nothing is shared, but two share a line where lines have 128 bytes.
#include "predator.h"

#define HARTS 3
#define TURNS 300

struct own {
    volatile uint32_t count[2];
    volatile uint32_t last[14];
} __attribute__((aligned(64)));

ALONE static struct own counters[HARTS];

static int work(void *it)
{
    struct own *own = it;
    for (int i = 0; i < TURNS; i++) {
        own->count[0]++;
        own->last[13] = i;
    }
    return 0;
}

int main(void)
{
    int harts[HARTS - 1];
    for (int i = 0; i < HARTS - 1; i++)
        harts[i] = predator_spawn(work, &counters[i + 1]);
    work(&counters[0]);
    for (int i = 0; i < HARTS - 1; i++)
        predator_join(harts[i]);
    return counters[1].count[0] == TURNS ? 0 : 1;
}
