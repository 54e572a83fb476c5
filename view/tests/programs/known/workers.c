// Statistics of workers side by side in an array.
#include <pthread.h>

#define WORKERS 4
#define ROUNDS 300

struct worker {
    unsigned tasks;
    unsigned failed;
    unsigned long bytes;
};

static volatile struct worker workers[WORKERS];

static void *work(void *argument)
{
    volatile struct worker *own = argument;
    for (unsigned i = 0; i < ROUNDS; i++) {
        own->tasks++;
        if (i % 8 == 0)
            own->failed++;
        own->bytes += i;
    }
    return 0;
}

int main(void)
{
    pthread_t threads[WORKERS];
    unsigned sum = 0;
    for (int i = 0; i < WORKERS; i++)
        if (pthread_create(&threads[i], 0, work, (void *)&workers[i]) != 0)
            return 1;
    for (int i = 0; i < WORKERS; i++) {
        pthread_join(threads[i], 0);
        sum += workers[i].tasks;
    }
    return sum == WORKERS * ROUNDS ? 0 : 1;
}
