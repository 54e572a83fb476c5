// Two arrays with an element of each thread, as variables or with -DWITHIN in one structure.
#include <pthread.h>
#include <stdint.h>

#define THREADS 4

#ifdef WITHIN
static struct {
    volatile int hits[THREADS], misses[THREADS];
} stats;
#define HITS stats.hits
#define MISSES stats.misses
#else
static volatile int hits[THREADS], misses[THREADS];
#define HITS hits
#define MISSES misses
#endif

static void *work(void *argument)
{
    uintptr_t me = (uintptr_t)argument;
    for (int i = 0; i < 700; i++) {
        HITS[me]++;
        MISSES[me]++;
    }
    return 0;
}

int main(void)
{
    pthread_t threads[THREADS];
    for (uintptr_t i = 0; i < THREADS; i++)
        pthread_create(&threads[i], 0, work, (void *)i);
    for (int i = 0; i < THREADS; i++)
        pthread_join(threads[i], 0);
    return 0;
}
