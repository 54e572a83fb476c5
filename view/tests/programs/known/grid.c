// A grid whose rows go to the threads in turn. A row is no multiple of a line.
#include <pthread.h>
#include <stdint.h>

#define THREADS 4
#define ROWS 12
#define COLUMNS 21
#define ROUNDS 12

#ifdef REPAIRED
struct __attribute__((aligned(64))) own_line {
    int32_t value[COLUMNS];
};
static volatile struct own_line grid[ROWS];
#define CELL(row, column) grid[row].value[column]
#else
static volatile int32_t grid[ROWS][COLUMNS];
#define CELL(row, column) grid[row][column]
#endif

#ifdef NEIGHBOURS
#define FIRST(thread) ((thread) * ROWS / THREADS)
#define END(thread) FIRST((thread) + 1)
#define STEP 1
#else
#define FIRST(thread) (thread)
#define END(thread) ROWS
#define STEP THREADS
#endif

static void *work(void *argument)
{
    int thread = (int)(long)argument;
    for (int i = 0; i < ROUNDS; i++)
        for (int row = FIRST(thread); row < END(thread); row += STEP)
            for (int column = 0; column < COLUMNS; column++)
                CELL(row, column) += i;
    return 0;
}

int main(void)
{
    pthread_t threads[THREADS];
    int32_t sum = 0;
    for (int i = 0; i < THREADS; i++)
        if (pthread_create(&threads[i], 0, work, (void *)(long)i) != 0)
            return 1;
    for (int i = 0; i < THREADS; i++)
        pthread_join(threads[i], 0);
    for (int row = 0; row < ROWS; row++)
        for (int column = 0; column < COLUMNS; column++)
            sum += CELL(row, column);
    return sum == ROWS * COLUMNS * ROUNDS * (ROUNDS - 1) / 2 ? 0 : 1;
}
