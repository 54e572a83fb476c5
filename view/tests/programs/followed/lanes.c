// Each thread has a row of three numbers in a matrix.
#include <pthread.h>
#include <stdint.h>

#define THREADS 4
#define ROUNDS 400

static volatile uint32_t lanes[THREADS][3];

static void *work(void *argument)
{
    uintptr_t me = (uintptr_t)argument;
    for (unsigned i = 0; i < ROUNDS; i++)
        lanes[me][i % 3] += i;
    return 0;
}

int main(void)
{
    pthread_t threads[THREADS];
    for (uintptr_t i = 0; i < THREADS; i++)
        pthread_create(&threads[i], 0, work, (void *)i);
    for (int i = 0; i < THREADS; i++)
        pthread_join(threads[i], 0);
    return 0;
}
