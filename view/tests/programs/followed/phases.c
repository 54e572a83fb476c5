// All threads count one phase, and each has its sum beside that.
#include <pthread.h>
#include <stdatomic.h>
#include <stdint.h>

#define THREADS 4
#define ROUNDS 300

static atomic_uint phase;
static volatile uint64_t sums[THREADS];

static void *work(void *argument)
{
    uintptr_t me = (uintptr_t)argument;
    for (unsigned i = 0; i < ROUNDS; i++) {
        for (unsigned k = 0; k < 6; k++)
            sums[me] += k;
        if (i % 4 == 0)
            atomic_fetch_add(&phase, 1);
    }
    return 0;
}

int main(void)
{
    pthread_t threads[THREADS];
    for (uintptr_t i = 0; i < THREADS; i++)
        pthread_create(&threads[i], 0, work, (void *)i);
    for (int i = 0; i < THREADS; i++)
        pthread_join(threads[i], 0);
    return 0;
}
