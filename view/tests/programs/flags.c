// Anderson's lock as it is often written: a byte for each slot, and the counter of slots beside them.
#include "predator.h"

#ifdef REPAIRED
#define OWN_LINE __attribute__((aligned(64)))
#else
#define OWN_LINE
#endif

#define HARTS 4
#define SLOTS 8
#define TURNS 25

struct slot {
    volatile uint8_t is_free;
} OWN_LINE;

ALONE static struct {
    volatile uint32_t next;
    struct slot slots[SLOTS];
} lock;
ALONE static volatile uint32_t guarded;

static int work(void *unused)
{
    (void)unused;
    for (int i = 0; i < TURNS; i++) {
        uint32_t own = __atomic_fetch_add(&lock.next, 1, __ATOMIC_RELAXED) % SLOTS;
        while (!__atomic_load_n(&lock.slots[own].is_free, __ATOMIC_ACQUIRE))
            ;
        lock.slots[own].is_free = 0;
        guarded++;
        __atomic_store_n(&lock.slots[(own + 1) % SLOTS].is_free, 1, __ATOMIC_RELEASE);
    }
    return 0;
}

int main(void)
{
    int harts[HARTS - 1];
    lock.slots[0].is_free = 1;
    for (int i = 0; i < HARTS - 1; i++)
        harts[i] = predator_spawn(work, 0);
    work(0);
    for (int i = 0; i < HARTS - 1; i++)
        predator_join(harts[i]);
    return guarded == HARTS * TURNS ? 0 : 1;
}
