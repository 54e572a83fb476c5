// Counters of threads, whose loop the compiler replaces by its sum.
#include <pthread.h>

static struct {
    long count;
} counters[4];

static void *work(void *argument) {
    long *own = argument;
    for (int i = 0; i < 5000; i++) ++*own;
    return 0;
}

int main(void) {
    pthread_t threads[4];
    for (int i = 0; i < 4; i++) pthread_create(&threads[i], 0, work, &counters[i].count);
    for (int i = 0; i < 4; i++) pthread_join(threads[i], 0);
    return counters[0].count == 1;
}
