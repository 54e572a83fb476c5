// Linear regression, as in the Phoenix suite: each thread sums up its share of the points in a record of its own, and the records
// stand side by side in one array. A record has 64 bytes and the places of its fields are those of machines of 64 bits.
//
// PLACE is how far behind a multiple of 256 the array begins, a multiple of 4. REPAIRED: the sums are kept in variables of the thread,
// and stored once.
#include "study.h"

#define POINTS 3500

#ifndef PLACE
#define PLACE 24
#endif

struct record {
    pthread_t thread;
    uint32_t behind_thread[2 - sizeof(pthread_t) / 4];
    // Each point is two bytes, x and y.
    const char *points;
    uint32_t behind_points[2 - sizeof(char *) / 4];
    int count;
    uint32_t behind_count;
    long long sx, sy, sxx, syy, sxy;
} __attribute__((packed, aligned(4)));
_Static_assert(sizeof(struct record) == 64, "a record has 64 bytes");

// The place isn't known to the compiler, so that the code is the same for each.
static const volatile size_t place = PLACE;

#ifdef REPAIRED
static void *sum_up(void *argument)
{
    struct record *to = argument;
    const char *points = to->points;
    long long sx = 0, sy = 0, sxx = 0, syy = 0, sxy = 0;
    for (int i = 0; i < to->count; i++) {
        int x = points[2 * i], y = points[2 * i + 1];
        sx += x;
        sxx += x * x;
        sy += y;
        syy += y * y;
        sxy += x * y;
    }
    to->sx = sx;
    to->sy = sy;
    to->sxx = sxx;
    to->syy = syy;
    to->sxy = sxy;
    return NULL;
}
#else
static void *sum_up(void *argument)
{
    // (The record is read and written for each point, as the suite's build does: no compiler may keep it in registers.)
    volatile struct record *to = argument;
    for (int i = 0; i < to->count; i++) {
        int x = to->points[2 * i], y = to->points[2 * i + 1];
        to->sx += x;
        to->sxx += x * x;
        to->sy += y;
        to->syy += y * y;
        to->sxy += x * y;
    }
    return NULL;
}
#endif

int main(void)
{
    struct record *records = placed(WORKERS * sizeof *records, place);
    char *points = malloc(2 * POINTS);
    uint32_t state = 1;
    for (int i = 0; i < POINTS; i++) {
        points[2 * i] = (char)(next_random(&state) % 100);
        points[2 * i + 1] = (char)(points[2 * i] / 2 + 20 + (int)(next_random(&state) % 8));
    }
    for (int i = 0; i < WORKERS; i++) {
        records[i].points = points + 2 * (POINTS / WORKERS * i);
        records[i].count = POINTS / WORKERS;
        pthread_t thread;
        if (pthread_create(&thread, NULL, sum_up, &records[i]) != 0)
            return 4;
        records[i].thread = thread;
    }
    long long n = POINTS / WORKERS * WORKERS, sx = 0, sy = 0, sxx = 0, sxy = 0;
    for (int i = 0; i < WORKERS; i++) {
        pthread_join(records[i].thread, NULL);
        sx += records[i].sx;
        sy += records[i].sy;
        sxx += records[i].sxx;
        sxy += records[i].sxy;
    }
    // The slope, in thousandths: one half. (There is no division of 64 bits on every machine.)
    int slope = (int)((n * sxy - sx * sy) >> 12) / ((int)((n * sxx - sx * sx) >> 12) / 1000);
    tell("slope", slope);
    return slope > 480 && slope < 520 ? 0 : 1;
}
