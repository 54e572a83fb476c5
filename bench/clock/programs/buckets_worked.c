// mixed: the same table with 1024 buckets, and a hundred steps or so of something else between two uses
#include "clock.h"

#define BUCKETS 1024

struct bucket {
    uint32_t lock;
    volatile uint32_t used, key, value;
} OWN;

ALONE static struct bucket buckets[BUCKETS];

static void work(uint32_t self, uint32_t rounds)
{
    uint32_t key = self + 1;
    for (uint32_t i = 0; i < rounds; i++) {
        key = next(spend(key, 12));
        struct bucket *it = &buckets[(key >> 16) % BUCKETS];
        lock(&it->lock);
        it->used++;
        it->key = key;
        it->value = i;
        unlock(&it->lock);
    }
}

static uint32_t result(void)
{
    uint32_t sum = 0;
    for (int i = 0; i < BUCKETS; i++)
        sum += buckets[i].used;
    return sum;
}

RUN(nothing, work, result, 1500)
