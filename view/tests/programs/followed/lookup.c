// A table's head that all read, and in the same block of the heap a count that all write.
#include <pthread.h>
#include <stdatomic.h>
#include <stdint.h>
#include <stdlib.h>

#define THREADS 4
#define ROUNDS 500

struct table {
    uint32_t mask, seed;
    atomic_uint found;
    uint32_t keys[13];
};
static struct table *table;

static void *work(void *argument)
{
    uint32_t key = (uint32_t)(uintptr_t)argument;
    for (unsigned i = 0; i < ROUNDS; i++) {
        volatile struct table *own = table;
        for (unsigned k = 0; k < 4; k++)
            key = key * own->seed + own->keys[(i + k) % 13];
        if ((key & own->mask) == 0)
            atomic_fetch_add(&table->found, 1);
    }
    return 0;
}

int main(void)
{
    pthread_t threads[THREADS];
    table = calloc(1, sizeof *table);
    table->mask = 1, table->seed = 69069;
    for (uintptr_t i = 0; i < THREADS; i++)
        pthread_create(&threads[i], 0, work, (void *)i);
    for (int i = 0; i < THREADS; i++)
        pthread_join(threads[i], 0);
    return 0;
}
