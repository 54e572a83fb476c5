// false: sums over points that each thread keeps in its record of an array, as in Phoenix's linear_regression
#include "clock.h"

#define POINTS 512

struct sums {
    volatile uint32_t x, y, xx, yy, xy;
} OWN;

ALONE static uint32_t points[POINTS][2];
ALONE static struct sums sums[THREADS];

static void setup(void)
{
    for (uint32_t i = 0; i < POINTS; i++) {
        points[i][0] = i & 63;
        points[i][1] = i >> 3;
    }
}

static void work(uint32_t self, uint32_t rounds)
{
    struct sums *own = &sums[self];
    for (uint32_t i = 0; i < rounds; i++) {
        uint32_t x = points[i % POINTS][0], y = points[i % POINTS][1];
        own->x += x;
        own->y += y;
        own->xx += x * x;
        own->yy += y * y;
        own->xy += x * y;
    }
}

static uint32_t result(void)
{
    uint32_t sum = 0;
    for (int i = 0; i < THREADS; i++)
        sum += sums[i].x + sums[i].y + sums[i].xx + sums[i].yy + sums[i].xy;
    return sum;
}

RUN(setup, work, result, 3000)
