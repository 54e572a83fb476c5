// handover: a lock that spins, beside the words that it guards; the threads do something else between two turns
#include "clock.h"

ALONE static struct {
    uint32_t lock;
    struct {
        volatile uint32_t count, sum;
    } OWN data;
} shared;

static void work(uint32_t self, uint32_t rounds)
{
    uint32_t value = self + 1;
    for (uint32_t i = 0; i < rounds; i++) {
        value = spend(value, 10);
        lock(&shared.lock);
        shared.data.count++;
        shared.data.sum += 1 + (value == 0);
        unlock(&shared.lock);
    }
}

static uint32_t result(void)
{
    return shared.data.count + shared.data.sum;
}

RUN(nothing, work, result, 1200)
