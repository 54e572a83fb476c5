// Threads in a ring hand the turn on: each waits for its flag, takes it back, and sets the next one.
#include <pthread.h>
#include <stdint.h>

#define THREADS 4

static volatile int turn[THREADS];

static void *work(void *argument)
{
    uintptr_t me = (uintptr_t)argument;
    for (int i = 0; i < 200; i++) {
        while (!turn[me])
            ;
        turn[me] = 0;
        turn[(me + 1) % THREADS] = 1;
    }
    return 0;
}

int main(void)
{
    pthread_t threads[THREADS];
    turn[0] = 1;
    for (uintptr_t i = 0; i < THREADS; i++)
        pthread_create(&threads[i], 0, work, (void *)i);
    for (int i = 0; i < THREADS; i++)
        pthread_join(threads[i], 0);
    return 0;
}
