// false: threads take the elements of a table in turn, so that each line has elements of all of them; padded it takes 16 times the room
#include "clock.h"

#define ELEMENTS 1024

struct element {
    volatile uint32_t value;
} OWN;

ALONE static struct element elements[ELEMENTS];

static void work(uint32_t self, uint32_t rounds)
{
    uint32_t at = self;
    for (uint32_t i = 0; i < rounds; i++) {
        elements[at].value += i;
        at = at + THREADS < ELEMENTS ? at + THREADS : self;
    }
}

static uint32_t result(void)
{
    uint32_t sum = 0;
    for (int i = 0; i < ELEMENTS; i++)
        sum += elements[i].value;
    return sum;
}

RUN(nothing, work, result, 8000)
