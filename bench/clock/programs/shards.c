// false: a map with a lock for each shard, of which each thread uses its own: the locks lie side by side with what they guard
#include "clock.h"

struct shard {
    uint32_t lock;
    volatile uint32_t used, keys[2];
} OWN;

ALONE static struct shard shards[THREADS];

static void work(uint32_t self, uint32_t rounds)
{
    struct shard *own = &shards[self];
    for (uint32_t i = 0; i < rounds; i++) {
        lock(&own->lock);
        own->keys[i & 1] = i;
        own->used++;
        unlock(&own->lock);
    }
}

static uint32_t result(void)
{
    uint32_t sum = 0;
    for (int i = 0; i < THREADS; i++)
        sum += shards[i].used;
    return sum;
}

RUN(nothing, work, result, 6000)
