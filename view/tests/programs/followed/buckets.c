// A hash table with a lock and a count for each stripe in arrays, and buckets of which each stripe has some.
#include <pthread.h>
#include <stdint.h>
#include <stdlib.h>

enum { THREADS = 4, STRIPES = 16, BUCKETS = 64, STEPS = 600, KEYS = 512 };

struct entry {
    struct entry *next;
    uint32_t key;
};

struct table {
    pthread_mutex_t locks[STRIPES];
    uint32_t counts[STRIPES];
    struct entry *buckets[BUCKETS];
};

static struct table *table;

static void put(uint32_t key) {
    uint32_t hash = key * 0x9e3779b1u >> 16, stripe = hash % STRIPES;
    pthread_mutex_lock(&table->locks[stripe]);
    struct entry **at = &table->buckets[hash % BUCKETS];
    struct entry *found = *at;
    while (found && found->key != key) found = found->next;
    if (!found) {
        found = aligned_alloc(64, 64);
        *found = (struct entry){*at, key};
        *at = found;
        table->counts[stripe]++;
    }
    pthread_mutex_unlock(&table->locks[stripe]);
}

static void *work(void *argument) {
    uint32_t random = (uint32_t)(uintptr_t)argument * 1299709 + 1;
    for (int i = 0; i < STEPS; i++) {
        random = random * 1664525 + 1013904223;
        put(random >> 16 & (KEYS - 1));
    }
    return 0;
}

int main(void) {
    pthread_t threads[THREADS];
    table = calloc(1, sizeof *table);
    for (int i = 0; i < STRIPES; i++) pthread_mutex_init(&table->locks[i], 0);
    for (int i = 0; i < THREADS; i++) pthread_create(&threads[i], 0, work, (void *)(uintptr_t)i);
    for (int i = 0; i < THREADS; i++) pthread_join(threads[i], 0);
    return 0;
}
