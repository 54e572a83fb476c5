// Each thread has a spin lock of one byte, a sum and a number of turns, in three arrays.
#include <pthread.h>
#include <stdatomic.h>
#include <stdint.h>

#define THREADS 4

static atomic_flag locks[THREADS];
static volatile uint32_t sums[THREADS], turns[THREADS];

static void *work(void *argument)
{
    uintptr_t me = (uintptr_t)argument;
    for (unsigned i = 0; i < 300; i++) {
        while (atomic_flag_test_and_set(&locks[me]))
            ;
        sums[me] += i;
        turns[me]++;
        atomic_flag_clear(&locks[me]);
    }
    return 0;
}

int main(void)
{
    pthread_t threads[THREADS];
    for (uintptr_t i = 0; i < THREADS; i++)
        pthread_create(&threads[i], 0, work, (void *)i);
    for (int i = 0; i < THREADS; i++)
        pthread_join(threads[i], 0);
    return 0;
}
