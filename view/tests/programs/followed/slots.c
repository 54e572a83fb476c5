// One block of the heap with a slot for each thread.
#include <pthread.h>
#include <stdint.h>
#include <stdlib.h>

#define THREADS 4
#define ROUNDS 600

struct slot {
    volatile uint32_t done, failed;
};
static struct slot *slots;

static void *work(void *argument)
{
    struct slot *own = &slots[(uintptr_t)argument];
    for (unsigned i = 0; i < ROUNDS; i++) {
        own->done++;
        own->failed += i & 1;
    }
    return 0;
}

int main(void)
{
    pthread_t threads[THREADS];
    slots = calloc(THREADS, sizeof *slots);
    for (uintptr_t i = 0; i < THREADS; i++)
        pthread_create(&threads[i], 0, work, (void *)i);
    for (int i = 0; i < THREADS; i++)
        pthread_join(threads[i], 0);
    free(slots);
    return 0;
}
