// mixed: objects that all threads count references to, and what they read of them lies beside the count
#include "clock.h"

#define OBJECTS 4

struct object {
    uint32_t references;
    volatile uint32_t kind OWN;
    volatile uint32_t size;
} APART;

ALONE static struct object objects[OBJECTS];
ALONE static struct {
    uint32_t sum;
} APART seen[THREADS];

static void setup(void)
{
    for (uint32_t i = 0; i < OBJECTS; i++)
        objects[i].size = objects[i].kind = i + 1;
}

static void work(uint32_t self, uint32_t rounds)
{
    uint32_t sum = 0, value = self + 1;
    for (uint32_t i = 0; i < rounds; i++) {
        value = next(value);
        struct object *it = &objects[(value >> 16) % OBJECTS];
        ADD(it->references, 1);
        for (uint32_t j = 0; j < 6; j++)
            sum += it->kind * it->size + j;
        ADD(it->references, (uint32_t)-1);
    }
    seen[self].sum = sum;
}

static uint32_t result(void)
{
    uint32_t sum = 0;
    for (int i = 0; i < THREADS; i++)
        sum += seen[i].sum;
    for (int i = 0; i < OBJECTS; i++)
        sum += objects[i].references;
    return sum;
}

RUN(setup, work, result, 1500)
