// A ring between two threads, each of which keeps what it saw last of the other one's index.
#include <pthread.h>
#include <stdatomic.h>

#define ROOM 16
#define ITEMS 800

struct ring {
    _Atomic unsigned head;
    _Atomic unsigned tail;
    unsigned cached_head;
    unsigned cached_tail;
    unsigned put;
    unsigned taken;
    unsigned slots[ROOM];
};

static volatile struct ring ring;
static unsigned total;

static void *put(void *unused)
{
    for (unsigned i = 1; i <= ITEMS; i++) {
        unsigned head = atomic_load_explicit(&ring.head, memory_order_relaxed);
        while (head - ring.cached_tail == ROOM)
            ring.cached_tail = atomic_load_explicit(&ring.tail, memory_order_acquire);
        ring.slots[head % ROOM] = i;
        ring.put++;
        atomic_store_explicit(&ring.head, head + 1, memory_order_release);
    }
    return unused;
}

static void *take(void *unused)
{
    unsigned sum = 0;
    for (unsigned i = 1; i <= ITEMS; i++) {
        unsigned tail = atomic_load_explicit(&ring.tail, memory_order_relaxed);
        while (ring.cached_head == tail)
            ring.cached_head = atomic_load_explicit(&ring.head, memory_order_acquire);
        sum += ring.slots[tail % ROOM];
        ring.taken++;
        atomic_store_explicit(&ring.tail, tail + 1, memory_order_release);
    }
    total = sum;
    return unused;
}

int main(void)
{
    pthread_t first, second;
    if (pthread_create(&first, 0, put, 0) != 0 || pthread_create(&second, 0, take, 0) != 0)
        return 1;
    pthread_join(first, 0);
    pthread_join(second, 0);
    return total == ITEMS * (ITEMS + 1) / 2 ? 0 : 1;
}
