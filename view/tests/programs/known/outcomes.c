// Counters of threads, of which one store of the compiler is for two lines of the source.
#include <pthread.h>
#include <stdint.h>

enum { THREADS = 4, STEPS = 2000 };

struct outcomes {
    uint64_t hits, misses, bytes;
};
static struct outcomes outcomes[THREADS];

static void *work(void *argument) {
    int me = (int)(intptr_t)argument;
    uint32_t draw = (uint32_t)me * 7919 + 1;
    for (int i = 0; i < STEPS; i++) {
        draw = draw * 1664525 + 1013904223;
        if (draw & 0x10000)
            outcomes[me].hits++;
        else
            outcomes[me].misses++;
        outcomes[me].bytes += draw & 0xff;
    }
    return 0;
}

int main(void) {
    pthread_t threads[THREADS];
    for (int i = 0; i < THREADS; i++) pthread_create(&threads[i], 0, work, (void *)(intptr_t)i);
    for (int i = 0; i < THREADS; i++) pthread_join(threads[i], 0);
    return outcomes[0].hits == 1;
}
