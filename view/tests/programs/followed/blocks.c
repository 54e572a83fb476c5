// Two blocks of the heap with an element of each thread, which a compiler may make variables.
#include <pthread.h>
#include <stdint.h>
#include <stdlib.h>

#define THREADS 4

static volatile uint32_t *sent, *lost;

static void *work(void *argument)
{
    uintptr_t me = (uintptr_t)argument;
    for (unsigned i = 0; i < 400; i++) {
        sent[me]++;
        lost[me] += i & 1;
    }
    return 0;
}

int main(void)
{
    pthread_t threads[THREADS];
    sent = calloc(THREADS, sizeof *sent);
    lost = calloc(THREADS, sizeof *lost);
    for (uintptr_t i = 0; i < THREADS; i++)
        pthread_create(&threads[i], 0, work, (void *)i);
    for (int i = 0; i < THREADS; i++)
        pthread_join(threads[i], 0);
    return 0;
}
