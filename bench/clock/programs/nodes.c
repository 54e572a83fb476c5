// false: small nodes that an allocator handed out in turn; each thread goes round a list of its own ones and counts in them
#include "clock.h"

#define NODES 8

struct node {
    volatile uint32_t next, count;
} OWN;

ALONE static struct node nodes[NODES * THREADS];

static void setup(void)
{
    for (uint32_t i = 0; i < NODES * THREADS; i++)
        nodes[i].next = (i + THREADS) % (NODES * THREADS);
}

static void work(uint32_t self, uint32_t rounds)
{
    uint32_t at = self;
    for (uint32_t i = 0; i < rounds; i++) {
        nodes[at].count++;
        at = nodes[at].next;
    }
}

static uint32_t result(void)
{
    uint32_t sum = 0;
    for (int i = 0; i < NODES * THREADS; i++)
        sum += nodes[i].count;
    return sum;
}

RUN(setup, work, result, 8000)
