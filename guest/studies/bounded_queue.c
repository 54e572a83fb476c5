// Bounded queues between pairs of threads: one puts items in, and one takes them out. Each side has an index that the other one reads,
// and a count of the times that it found the queue full or empty; all four stand side by side.
//
// REPAIRED: what a side writes has its own lines, and each side keeps what it last saw of the other's index, so that it reads it only
// where the queue looks full, or empty.
#include "study.h"
#include <sched.h>
#include <stdatomic.h>

#define PAIRS 3
#define ITEMS 1500
#define SLOTS 16

struct side {
#ifdef REPAIRED
    OWN_LINES
#endif
    atomic_uint index;
    unsigned other;
    unsigned waits;
};

struct queue {
    struct side in, out;
#ifdef REPAIRED
    OWN_LINES
#endif
    unsigned slots[SLOTS];
};

static struct queue *queues;
static unsigned sums[PAIRS];

// Waits until the other side's index isn't at the given value.
static void await(struct side *own, const struct side *other, unsigned value)
{
#ifdef REPAIRED
    if (own->other != value)
        return;
#endif
    while ((own->other = atomic_load_explicit(&other->index, memory_order_acquire)) == value) {
        own->waits++;
        sched_yield();
    }
}

static void put(struct queue *queue, unsigned item)
{
    unsigned at = atomic_load_explicit(&queue->in.index, memory_order_relaxed);
    await(&queue->in, &queue->out, at - SLOTS);
    queue->slots[at % SLOTS] = item;
    atomic_store_explicit(&queue->in.index, at + 1, memory_order_release);
}

static unsigned take(struct queue *queue)
{
    unsigned at = atomic_load_explicit(&queue->out.index, memory_order_relaxed);
    await(&queue->out, &queue->in, at);
    unsigned item = queue->slots[at % SLOTS];
    atomic_store_explicit(&queue->out.index, at + 1, memory_order_release);
    return item;
}

static void *produce(void *argument)
{
    for (unsigned i = 1; i <= ITEMS; i++)
        put(&queues[(uintptr_t)argument], i);
    return NULL;
}

static void *consume(void *argument)
{
    unsigned sum = 0;
    for (unsigned i = 1; i <= ITEMS; i++)
        sum += take(&queues[(uintptr_t)argument]);
    sums[(uintptr_t)argument] = sum;
    return NULL;
}

static void *work(void *argument)
{
    uintptr_t thread = (uintptr_t)argument;
    if (thread / 2 < PAIRS)
        (thread % 2 == 0 ? produce : consume)((void *)(thread / 2));
    return NULL;
}

int main(void)
{
    queues = placed(PAIRS * sizeof *queues, 0);
    run_threads(work);
    int wrong = 0;
    for (int i = 0; i < PAIRS; i++)
        wrong += sums[i] != ITEMS * (ITEMS + 1) / 2;
    tell("wrong", wrong);
    return wrong;
}
