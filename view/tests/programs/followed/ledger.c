// Accounts of which each has a lock in one array and a sum in another; threads move money between neighbouring accounts.
#include <pthread.h>
#include <stdatomic.h>
#include <stdint.h>

#define THREADS 4
#define ACCOUNTS 8
#define ROUNDS 300

static atomic_uint locks[ACCOUNTS];
static volatile uint32_t sums[ACCOUNTS], moves[ACCOUNTS];

static void *work(void *argument)
{
    uint32_t draw = (uint32_t)(uintptr_t)argument * 7919 + 1;
    for (unsigned i = 0; i < ROUNDS; i++) {
        draw = draw * 1664525 + 1013904223;
        unsigned at = draw >> 29;
        while (atomic_exchange(&locks[at], 1))
            ;
        sums[at] += draw >> 20;
        moves[at]++;
        atomic_store(&locks[at], 0);
    }
    return 0;
}

int main(void)
{
    pthread_t threads[THREADS];
    for (uintptr_t i = 0; i < THREADS; i++)
        pthread_create(&threads[i], 0, work, (void *)i);
    for (int i = 0; i < THREADS; i++)
        pthread_join(threads[i], 0);
    return 0;
}
