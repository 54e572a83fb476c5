// mixed: a hash table of 64 buckets with a lock each, four of them in a line, that all threads use at random
#include "clock.h"

#define BUCKETS 64

struct bucket {
    uint32_t lock;
    volatile uint32_t used, key, value;
} OWN;

ALONE static struct bucket buckets[BUCKETS];

static void work(uint32_t self, uint32_t rounds)
{
    uint32_t key = self + 1;
    for (uint32_t i = 0; i < rounds; i++) {
        key = next(key);
        struct bucket *it = &buckets[(key >> 16) % BUCKETS];
        lock(&it->lock);
        it->used++;
        it->key = key;
        it->value = i;
        unlock(&it->lock);
    }
}

static uint32_t result(void)
{
    uint32_t sum = 0;
    for (int i = 0; i < BUCKETS; i++)
        sum += buckets[i].used;
    return sum;
}

RUN(nothing, work, result, 4000)
