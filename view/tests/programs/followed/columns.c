// A matrix of which each thread has every fourth column.
#include <pthread.h>
#include <stdint.h>

#define THREADS 4
#define ROWS 32
#define COLUMNS 32

static uint32_t matrix[ROWS][COLUMNS];

static void *work(void *argument)
{
    for (int round = 0; round < 4; round++)
        for (uintptr_t column = (uintptr_t)argument; column < COLUMNS; column += THREADS)
            for (int row = 1; row < ROWS; row++)
                matrix[row][column] += matrix[row - 1][column] * 3 + 1;
    return 0;
}

int main(void)
{
    pthread_t threads[THREADS];
    for (uintptr_t i = 0; i < THREADS; i++)
        pthread_create(&threads[i], 0, work, (void *)i);
    for (int i = 0; i < THREADS; i++)
        pthread_join(threads[i], 0);
    return 0;
}
