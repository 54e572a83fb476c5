// Histogram of a picture, as in the Phoenix suite: each thread counts the values of its share of the pixels in a record of its own,
// and the records stand side by side in one array. A record has 3088 bytes, so its counts end on the line on which the next one
// begins: there stand what that thread reads of its task, and its first counts.
//
// PLACE is how far behind a multiple of 256 the array begins, a multiple of 4. REPAIRED: each record begins with a line.
#include "study.h"

#define PIXELS 56000

#if defined(REPAIRED)
#define PLACE 0
#elif !defined(PLACE)
#define PLACE 16
#endif

struct record {
#ifdef REPAIRED
    OWN_LINES
#endif
    const unsigned char *data;
    uint32_t behind_data[2 - sizeof(char *) / 4];
    int from, count;
    int red[256], green[256], blue[256];
} __attribute__((packed, aligned(4)));

#ifndef REPAIRED
_Static_assert(sizeof(struct record) == 3088, "a record has 3088 bytes");
#endif

// The place isn't known to the compiler, so that the code is the same for each.
static const volatile size_t place = PLACE;

static struct record *records;

static void *count_values(void *argument)
{
    struct record *own = &records[(uintptr_t)argument];
    for (int i = own->from; i < own->from + own->count; i += 3) {
        own->blue[own->data[i]]++;
        own->green[own->data[i + 1]]++;
        own->red[own->data[i + 2]]++;
    }
    return NULL;
}

int main(void)
{
    records = placed(WORKERS * sizeof *records, place);
    unsigned char *data = malloc(3 * PIXELS);
    uint32_t state = 1;
    for (int i = 0; i < 3 * PIXELS; i++)
        data[i] = (unsigned char)next_random(&state);
    for (int i = 0; i < WORKERS; i++) {
        records[i].data = data;
        records[i].count = PIXELS / WORKERS * 3;
        records[i].from = i * records[i].count;
    }
    run_threads(count_values);
    int sum = 0;
    for (int i = 0; i < WORKERS; i++)
        for (int value = 0; value < 256; value++)
            sum += records[i].red[value] + records[i].green[value] + records[i].blue[value];
    tell("counted", sum);
    return sum == 3 * PIXELS ? 0 : 1;
}
