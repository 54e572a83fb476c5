// A ring for one producer and one consumer, and statistics of each hart side by side.
#include "predator.h"

#ifdef REPAIRED
#define OWN_LINES __attribute__((aligned(64)))
#else
#define OWN_LINES
#endif

#define ROOM 16
#define ITEMS 150
#define HARTS 4

struct ring {
    volatile uint32_t head;
    volatile uint32_t tail;
    uint32_t slots[ROOM];
};

struct range {
    uint32_t low, high;
};

struct stats {
    volatile struct range seen[2];
} OWN_LINES;

ALONE static struct ring ring;
ALONE static struct stats stats[HARTS];
static volatile uint32_t sum;

static void note(struct stats *own, uint32_t value)
{
    own->seen[value & 1].high = value;
}

static int producer(void *unused)
{
    (void)unused;
    for (uint32_t i = 1; i <= ITEMS; i++) {
        while (__atomic_load_n(&ring.head, __ATOMIC_RELAXED) - __atomic_load_n(&ring.tail, __ATOMIC_ACQUIRE) == ROOM)
            note(&stats[1], i);
        ring.slots[ring.head % ROOM] = i;
        __atomic_store_n(&ring.head, ring.head + 1, __ATOMIC_RELEASE);
        note(&stats[1], i);
    }
    return 0;
}

static int consumer(void *unused)
{
    uint32_t found = 0;
    (void)unused;
    for (uint32_t i = 1; i <= ITEMS; i++) {
        while (__atomic_load_n(&ring.head, __ATOMIC_ACQUIRE) == __atomic_load_n(&ring.tail, __ATOMIC_RELAXED))
            note(&stats[2], i);
        found += ring.slots[ring.tail % ROOM];
        __atomic_store_n(&ring.tail, ring.tail + 1, __ATOMIC_RELEASE);
        note(&stats[2], i);
    }
    sum = found;
    return 0;
}

int main(void)
{
    int first = predator_spawn(producer, 0), second = predator_spawn(consumer, 0);
    predator_join(first);
    predator_join(second);
    return sum == ITEMS * (ITEMS + 1) / 2 ? 0 : 1;
}
