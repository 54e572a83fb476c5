// Anderson's lock with packed slots: each hart spins on a slot of its own, and the slots share a line.
#include "predator.h"

#ifdef REPAIRED
#define OWN_LINES __attribute__((aligned(64)))
#else
#define OWN_LINES
#endif

#define HARTS 4
#define TURNS 25

struct slot {
    volatile uint32_t is_free;
} OWN_LINES;

ALONE static struct {
    struct slot slots[HARTS];
} lock;
ALONE static volatile uint32_t next_slot;
ALONE static volatile uint32_t guarded;

static int work(void *unused)
{
    (void)unused;
    for (int i = 0; i < TURNS; i++) {
        uint32_t own = __atomic_fetch_add(&next_slot, 1, __ATOMIC_RELAXED) % HARTS;
        while (!__atomic_load_n(&lock.slots[own].is_free, __ATOMIC_ACQUIRE))
            ;
        lock.slots[own].is_free = 0;
        guarded++;
        __atomic_store_n(&lock.slots[(own + 1) % HARTS].is_free, 1, __ATOMIC_RELEASE);
    }
    return 0;
}

int main(void)
{
    int harts[HARTS - 1];
    lock.slots[0].is_free = 1;
    for (int i = 0; i < HARTS - 1; i++)
        harts[i] = predator_spawn(work, 0);
    work(0);
    for (int i = 0; i < HARTS - 1; i++)
        predator_join(harts[i]);
    return guarded == HARTS * TURNS ? 0 : 1;
}
