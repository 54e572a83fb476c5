/* Producers and consumers, as in Lever's and Boreham's xmalloc: half of the threads ask for blocks
   and put them into a queue, and the others take them out, use them and free them. So each block is
   freed by another thread than the one that asked for it. */
#include "driver.h"

#define BATCHES 10
#define BATCH   16
#define ROOM    4

struct batch {
    _Alignas(256) char *blocks[BATCH];
};

static struct {
    _Alignas(256) pthread_mutex_t lock;
    pthread_cond_t has_room, has_batch;
    unsigned count, taken, put;
    struct batch batches[ROOM];
} queue;

static void prepare(void)
{
    pthread_mutex_init(&queue.lock, NULL);
    pthread_cond_init(&queue.has_room, NULL);
    pthread_cond_init(&queue.has_batch, NULL);
}

static void put_batch(const struct batch *own)
{
    pthread_mutex_lock(&queue.lock);
    while (queue.count == ROOM)
        pthread_cond_wait(&queue.has_room, &queue.lock);
    queue.batches[queue.put++ % ROOM] = *own;
    queue.count++;
    pthread_cond_signal(&queue.has_batch);
    pthread_mutex_unlock(&queue.lock);
}

/* Whether there is a batch yet to come, which is then taken. */
static int take_batch(struct batch *own, unsigned all)
{
    pthread_mutex_lock(&queue.lock);
    while (queue.count == 0 && queue.taken < all)
        pthread_cond_wait(&queue.has_batch, &queue.lock);
    int has_one = queue.count > 0;
    if (has_one) {
        *own = queue.batches[queue.taken++ % ROOM];
        queue.count--;
        if (queue.taken == all)
            pthread_cond_broadcast(&queue.has_batch);
        pthread_cond_signal(&queue.has_room);
    }
    pthread_mutex_unlock(&queue.lock);
    return has_one;
}

static void work(unsigned thread)
{
    unsigned producers = run.threads / 2;
    struct batch own;
    if (thread < producers) {
        for (int round = 0; round < BATCHES; round++) {
            for (int it = 0; it < BATCH; it++)
                own.blocks[it] = take(run.size);
            put_batch(&own);
        }
        return;
    }
    while (take_batch(&own, producers * BATCHES))
        for (int it = 0; it < BATCH; it++) {
            write_words(own.blocks[it], run.size, 4);
            give(own.blocks[it]);
        }
}

int main(int count, char **words) { return run_driver(count, words, prepare, work); }
