// The gain of a new centre, as in PARSEC's streamcluster: each thread judges of its points whether they would be nearer to the new centre,
// and if not, what their own centre would save by closing. It adds this up in its part of one work array. A part is rounded up to whole
// lines of LINE bytes, and the suite's LINE is 32, so here a part has 96 bytes. Which points would switch stands in an array of bytes.
//
// Costs are whole numbers of 8 bytes, in place of the suite's floating point. PLACE is how far behind a multiple of 256 both arrays
// begin. REPAIRED: parts of 128 bytes, of the points' bytes too.
#include "study.h"

#define POINTS 420
#define ROUNDS 10
#define CENTRES 10

#ifdef REPAIRED
#define LINE 128
#endif
#ifndef LINE
#define LINE 32
#endif
#ifndef PLACE
#define PLACE 0
#endif

struct point {
    int x, y, weight, centre;
    int64_t cost;
};

static struct point points[POINTS];
static int centres[CENTRES];
// (A place may be any multiple of 4.)
typedef int64_t cost_t __attribute__((aligned(4)));

static const volatile size_t place = PLACE;
static cost_t *work_mem;
static size_t stride;
static unsigned char *switches;
static pthread_barrier_t barrier;
static int64_t gains[ROUNDS];

// A point's byte. In the suite it stands at the point's number.
static unsigned char *switch_of(uintptr_t thread, int point)
{
#ifdef REPAIRED
    return &switches[thread * LINE + (size_t)point - POINTS / WORKERS * thread];
#else
    (void)thread;
    return &switches[point];
#endif
}

static int64_t distance(const struct point *a, const struct point *b)
{
    return (int64_t)(a->x - b->x) * (a->x - b->x) + (int64_t)(a->y - b->y) * (a->y - b->y);
}

// What the thread's points would gain by a new centre: its part of the work array has what each centre would save, and the
// gain of the switches, then their number.
static void judge(uintptr_t thread, const struct point *candidate)
{
    cost_t *lower = work_mem + thread * stride;
    int from = POINTS / WORKERS * (int)thread;
    memset(lower, 0, stride * sizeof *lower);
    for (int i = from; i < from + POINTS / WORKERS; i++) {
        int64_t cost = distance(&points[i], candidate) * points[i].weight;
        *switch_of(thread, i) = cost < points[i].cost;
        if (cost < points[i].cost) {
            lower[CENTRES] += points[i].cost - cost;
            lower[CENTRES + 1]++;
        } else {
            lower[points[i].centre] += points[i].cost - cost;
        }
    }
}

static void *work(void *argument)
{
    uintptr_t thread = (uintptr_t)argument;
    for (int round = 0; round < ROUNDS; round++) {
        judge(thread, &points[(round * 67 + 5) % POINTS]);
        pthread_barrier_wait(&barrier);
        if (thread == 0)
            for (uintptr_t i = 0; i < WORKERS; i++)
                gains[round] += work_mem[i * stride + CENTRES];
        pthread_barrier_wait(&barrier);
    }
    return NULL;
}

int main(void)
{
    uint32_t state = 1;
    for (int i = 0; i < POINTS; i++)
        points[i] = (struct point){(int)(next_random(&state) % 1000), (int)(next_random(&state) % 1000), 1 + i % 3, 0, 0};
    for (int i = 0; i < CENTRES; i++)
        centres[i] = i * 40;
    for (int i = 0; i < POINTS; i++) {
        points[i].cost = INT64_MAX;
        for (int at = 0; at < CENTRES; at++) {
            int64_t cost = distance(&points[i], &points[centres[at]]) * points[i].weight;
            if (cost < points[i].cost) {
                points[i].cost = cost;
                points[i].centre = at;
            }
        }
    }
    size_t whole = LINE / sizeof *work_mem;
    stride = (CENTRES + 2 + whole - 1) / whole * whole;
    work_mem = placed(WORKERS * stride * sizeof *work_mem, place);
    switches = placed(WORKERS * LINE > POINTS ? WORKERS * LINE : POINTS, place);
    pthread_barrier_init(&barrier, NULL, WORKERS);
    run_threads(work);
    int64_t best = 0;
    for (int round = 0; round < ROUNDS; round++)
        best = gains[round] > best ? gains[round] : best;
    tell("best gain", (long)best);
    return best > 0 ? 0 : 1;
}
