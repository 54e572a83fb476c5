// One thread puts numbers into a ring of DPDK's, and another one takes them out. Of DPDK's environment the ring wants three functions, which
// aren't called here but for the list of rings, which nobody looks at.
#include <pthread.h>
#include <stdio.h>
#include <stdlib.h>

#include <rte_ring.h>
#include <rte_tailq.h>

#define ROOM 64
#define NUMBERS 2000
// How far behind the beginning of a line the ring lies.
#ifndef PLACE
#define PLACE 0
#endif

static struct rte_ring *ring;

int rte_eal_tailq_register(struct rte_tailq_elem *list)
{
    (void)list;
    return 0;
}

int rte_log(uint32_t level, uint32_t kind, const char *format, ...)
{
    (void)level, (void)kind, (void)format;
    return 0;
}

void __rte_panic(const char *function, const char *format, ...)
{
    (void)function, (void)format;
    abort();
}

static void *take(void *unused)
{
    uintptr_t sum = 0;
    (void)unused;
    for (int i = 0; i < NUMBERS; i++) {
        void *taken;
        while (rte_ring_sc_dequeue(ring, &taken) != 0)
            ;
        sum += (uintptr_t)taken;
    }
    return (void *)sum;
}

int main(void)
{
    pthread_t thread;
    void *sum;
    char *block = aligned_alloc(RTE_CACHE_LINE_SIZE, rte_ring_get_memsize(ROOM) + RTE_CACHE_LINE_SIZE);
    if (block == NULL)
        return 1;
    ring = (struct rte_ring *)(block + PLACE);
    if (rte_ring_init(ring, "ring", ROOM, RING_F_SP_ENQ | RING_F_SC_DEQ) != 0)
        return 2;
    if (pthread_create(&thread, NULL, take, NULL) != 0)
        return 3;
    for (uintptr_t i = 0; i < NUMBERS; i++)
        while (rte_ring_sp_enqueue(ring, (void *)i) != 0)
            ;
    pthread_join(thread, &sum);
    printf("%lu\n", (unsigned long)(uintptr_t)sum);
    return 0;
}
