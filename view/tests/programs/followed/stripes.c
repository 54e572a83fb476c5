// A table in one block of the heap, with a lock and a count for each stripe in arrays of their own.
#include <pthread.h>
#include <stdint.h>
#include <stdlib.h>

#define THREADS 4
#define STRIPES 8

struct table {
    pthread_mutex_t locks[STRIPES];
    uint32_t counts[STRIPES], values[64];
};
static struct table *table;

static struct table *make_table(void)
{
    struct table *made = calloc(1, sizeof *made);
    for (int i = 0; i < STRIPES; i++)
        pthread_mutex_init(&made->locks[i], 0);
    return made;
}

static void *work(void *argument)
{
    uint32_t draw = (uint32_t)(uintptr_t)argument * 7919 + 1;
    for (int i = 0; i < 400; i++) {
        draw = draw * 1664525 + 1013904223;
        uint32_t at = draw >> 26, stripe = at % STRIPES;
        pthread_mutex_lock(&table->locks[stripe]);
        table->values[at] += draw;
        table->counts[stripe]++;
        pthread_mutex_unlock(&table->locks[stripe]);
    }
    return 0;
}

int main(void)
{
    pthread_t threads[THREADS];
    table = make_table();
    for (uintptr_t i = 0; i < THREADS; i++)
        pthread_create(&threads[i], 0, work, (void *)i);
    for (int i = 0; i < THREADS; i++)
        pthread_join(threads[i], 0);
    return 0;
}
