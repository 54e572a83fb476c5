// All threads add to one number.
#include <pthread.h>
#include <stdatomic.h>

#define THREADS 4
#define ROUNDS 300

static _Atomic unsigned sum;

static void *work(void *unused)
{
    for (unsigned i = 0; i < ROUNDS; i++)
        sum++;
    return unused;
}

int main(void)
{
    pthread_t threads[THREADS];
    for (int i = 0; i < THREADS; i++)
        if (pthread_create(&threads[i], 0, work, 0) != 0)
            return 1;
    for (int i = 0; i < THREADS; i++)
        pthread_join(threads[i], 0);
    return sum == THREADS * ROUNDS ? 0 : 1;
}
