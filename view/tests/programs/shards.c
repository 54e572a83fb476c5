// A map with a lock a shard: each hart mostly uses one shard, and the locks lie side by side, four to a line with what they guard.
#include "predator.h"

#ifdef REPAIRED
#define OWN_LINES __attribute__((aligned(64)))
#else
#define OWN_LINES
#endif

#define SHARDS 4
#define TURNS 120

struct shard {
    volatile uint32_t lock;
    volatile uint32_t used : 24, is_full : 8;
    volatile uint32_t keys[2];
} OWN_LINES;

ALONE static struct shard shards[SHARDS];

static void put(uint32_t key)
{
    struct shard *shard = &shards[key % SHARDS];
    while (__atomic_exchange_n(&shard->lock, 1, __ATOMIC_ACQUIRE) != 0)
        ;
    shard->keys[key / SHARDS & 1] = key;
    shard->used++;
    __atomic_store_n(&shard->lock, 0, __ATOMIC_RELEASE);
}

static int work(void *it)
{
    uint32_t own = (uint32_t)(uintptr_t)it;
    for (uint32_t i = 0; i < TURNS; i++)
        put(own + SHARDS * i);
    return 0;
}

int main(void)
{
    int harts[SHARDS];
    for (uintptr_t i = 0; i < SHARDS; i++)
        harts[i] = predator_spawn(work, (void *)i);
    for (int i = 0; i < SHARDS; i++)
        predator_join(harts[i]);
    return shards[2].used == TURNS ? 0 : 1;
}
