// mixed: data under a sequence lock, written by one thread every two hundred steps or so, and how often each reader read beside it
#include "clock.h"

ALONE static struct {
    uint32_t sequence;
    uint32_t one, other;
    struct {
        volatile uint32_t count;
    } OWN reads[THREADS];
} shared;

static void write_both(uint32_t value)
{
    uint32_t before = LOAD(shared.sequence);
    STORE(shared.sequence, before + 1);
    __atomic_thread_fence(__ATOMIC_RELEASE);
    STORE(shared.one, value);
    STORE(shared.other, value);
    RELEASE(shared.sequence, before + 2);
}

static uint32_t is_read(void)
{
    uint32_t before = ACQUIRE(shared.sequence);
    uint32_t one = LOAD(shared.one), other = LOAD(shared.other);
    __atomic_thread_fence(__ATOMIC_ACQUIRE);
    return before % 2 == 0 && LOAD(shared.sequence) == before && one == other;
}

static void work(uint32_t self, uint32_t rounds)
{
    uint32_t value = self;
    for (uint32_t i = 0; i < rounds; i++) {
        if (self == 0) {
            value = spend(value + 1, 20);
            write_both(value);
        }
        SPIN_WHILE(!is_read());
        shared.reads[self].count++;
    }
}

static uint32_t result(void)
{
    uint32_t sum = shared.sequence;
    for (int i = 0; i < THREADS; i++)
        sum += shared.reads[i].count;
    return sum;
}

RUN(nothing, work, result, 1500)
