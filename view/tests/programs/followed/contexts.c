// Contexts of threads in an array on the stack of main, beside the threads' handles.
#include <pthread.h>
#include <stdint.h>

enum { THREADS = 4, STEPS = 1500 };

struct context {
    uint32_t number;
    volatile uint32_t sum, steps;
};

static void *work(void *argument) {
    struct context *own = argument;
    for (uint32_t i = 0; i < STEPS; i++) {
        own->sum += i;
        own->steps++;
    }
    return 0;
}

static uint32_t run(void) {
    pthread_t threads[THREADS];
    struct context contexts[THREADS] = {{0}};
    for (uint32_t i = 0; i < THREADS; i++) {
        contexts[i].number = i;
        pthread_create(&threads[i], 0, work, &contexts[i]);
    }
    uint32_t sum = 0;
    for (uint32_t i = 0; i < THREADS; i++) {
        pthread_join(threads[i], 0);
        sum += contexts[i].sum;
    }
    return sum;
}

int main(void) { return run() == 1; }
