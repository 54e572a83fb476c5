// A queue with its lock, beside which each thread counts what it took.
#include <pthread.h>
#include <stdatomic.h>
#include <stdint.h>

#define THREADS 4
#define ROUNDS 1200

static struct broker {
    atomic_uint next;
    volatile uint32_t took[THREADS], work[THREADS];
} broker;

static void *serve(void *argument)
{
    uintptr_t me = (uintptr_t)argument;
    for (unsigned at; (at = atomic_fetch_add(&broker.next, 1)) < ROUNDS;) {
        broker.took[me]++;
        for (unsigned i = 0; i < 8; i++)
            broker.work[me] += at ^ i;
    }
    return 0;
}

int main(void)
{
    pthread_t threads[THREADS];
    for (uintptr_t i = 0; i < THREADS; i++)
        pthread_create(&threads[i], 0, serve, (void *)i);
    for (int i = 0; i < THREADS; i++)
        pthread_join(threads[i], 0);
    return 0;
}
