// Shards with a lock each, and beside them another array of locks.
#include <pthread.h>
#include <stdint.h>

#define THREADS 4

struct shard {
    pthread_mutex_t lock;
    uint64_t hits;
};
static struct shard shards[THREADS];
static pthread_mutex_t locks[THREADS];

static void *work(void *argument)
{
    uintptr_t me = (uintptr_t)argument;
    for (int i = 0; i < 300; i++) {
        pthread_mutex_lock(&locks[me]);
        shards[me].hits++;
        pthread_mutex_unlock(&locks[me]);
    }
    return 0;
}

int main(void)
{
    pthread_t threads[THREADS];
    for (uintptr_t i = 0; i < THREADS; i++)
        pthread_create(&threads[i], 0, work, (void *)i);
    for (int i = 0; i < THREADS; i++)
        pthread_join(threads[i], 0);
    return 0;
}
