// false: a work-stealing deque for each thread, side by side; the owner pushes and pops, and seldom another one steals
#include "clock.h"

#define FILLED 8

struct deque {
    uint32_t bottom, top;
} OWN;

ALONE static struct deque deques[THREADS];
ALONE static struct {
    volatile uint32_t count;
} APART done[THREADS];

static void setup(void)
{
    for (int i = 0; i < THREADS; i++)
        deques[i].bottom = FILLED;
}

static void push(struct deque *own)
{
    RELEASE(own->bottom, LOAD(own->bottom) + 1);
}

static uint32_t steal(struct deque *other)
{
    uint32_t top = ACQUIRE(other->top);
    FENCE();
    return (int32_t)(ACQUIRE(other->bottom) - top) > 0 && try_set(&other->top, top, top + 1);
}

static uint32_t pop(struct deque *own)
{
    uint32_t bottom = LOAD(own->bottom) - 1;
    STORE(own->bottom, bottom);
    FENCE();
    uint32_t top = LOAD(own->top);
    if ((int32_t)(bottom - top) > 0)
        return 1;
    STORE(own->bottom, bottom + 1);
    return bottom == top && try_set(&own->top, top, top + 1);
}

static void work(uint32_t self, uint32_t rounds)
{
    uint32_t own = 0;
    for (uint32_t i = 0; i < rounds; i++) {
        push(&deques[self]);
        own += pop(&deques[self]);
        if (i % 256 == 255)
            own += steal(&deques[(self + 1) % THREADS]);
    }
    done[self].count = own;
}

static uint32_t result(void)
{
    uint32_t sum = 0;
    for (int i = 0; i < THREADS; i++)
        sum += done[i].count + deques[i].bottom - deques[i].top;
    return sum;
}

RUN(setup, work, result, 5000)
