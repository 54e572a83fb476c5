// false: rows of 130 words, which threads take in turn and smooth: the ends of a row share lines with its neighbours
#include "clock.h"

#define ROWS 8
#define COLUMNS 130

struct row {
    volatile uint32_t cells[COLUMNS];
} OWN;

ALONE static struct row rows[ROWS];

static void setup(void)
{
    for (uint32_t i = 0; i < ROWS; i++)
        for (uint32_t j = 0; j < COLUMNS; j++)
            rows[i].cells[j] = i * j;
}

static void work(uint32_t self, uint32_t rounds)
{
    for (uint32_t i = 0; i < rounds; i++)
        for (uint32_t row = self; row < ROWS; row += THREADS)
            for (uint32_t j = 1; j + 1 < COLUMNS; j++)
                rows[row].cells[j] = (rows[row].cells[j - 1] + 2 * rows[row].cells[j] + rows[row].cells[j + 1]) / 4;
}

static uint32_t result(void)
{
    uint32_t sum = 0;
    for (int i = 0; i < ROWS; i++)
        for (int j = 0; j < COLUMNS; j++)
            sum += rows[i].cells[j];
    return sum;
}

RUN(setup, work, result, 40 / THREADS)
