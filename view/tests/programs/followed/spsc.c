// A ring of one producer and one consumer in a block of the heap, whose indices lie side by side.
#include <pthread.h>
#include <stdatomic.h>
#include <stdlib.h>

#define ROOM 16
#define ITEMS 300

struct spsc {
    atomic_uint head, tail;
    unsigned pushed, popped;
    int slots[ROOM];
};
static struct spsc *queue;

static void *produce(void *unused)
{
    for (int i = 0; i < ITEMS;) {
        unsigned tail = atomic_load(&queue->tail);
        if (tail - atomic_load(&queue->head) == ROOM)
            continue;
        queue->slots[tail % ROOM] = i++;
        queue->pushed++;
        atomic_store(&queue->tail, tail + 1);
    }
    return unused;
}

static void *consume(void *unused)
{
    for (int i = 0; i < ITEMS;) {
        unsigned head = atomic_load(&queue->head);
        if (head == atomic_load(&queue->tail))
            continue;
        i += queue->slots[head % ROOM] >= 0;
        queue->popped++;
        atomic_store(&queue->head, head + 1);
    }
    return unused;
}

int main(void)
{
    pthread_t threads[2];
    queue = calloc(1, sizeof *queue);
    pthread_create(&threads[0], 0, produce, 0);
    pthread_create(&threads[1], 0, consume, 0);
    pthread_join(threads[0], 0);
    pthread_join(threads[1], 0);
    return 0;
}
