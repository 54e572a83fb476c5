// A byte for each thread, side by side in one word.
#include <pthread.h>

#define THREADS 4
#define ROUNDS 300

#ifdef REPAIRED
struct __attribute__((aligned(64))) own_line {
    unsigned char value;
};
static volatile struct own_line marks[THREADS];
#define MARK(i) marks[i].value
#else
static volatile unsigned char marks[THREADS];
#define MARK(i) marks[i]
#endif

static void *work(void *argument)
{
    volatile unsigned char *own = argument;
    for (unsigned i = 0; i < ROUNDS; i++)
        (*own)++;
    return 0;
}

int main(void)
{
    pthread_t threads[THREADS];
    for (int i = 0; i < THREADS; i++)
        if (pthread_create(&threads[i], 0, work, (void *)&MARK(i)) != 0)
            return 1;
    for (int i = 0; i < THREADS; i++)
        pthread_join(threads[i], 0);
    return MARK(0) == ROUNDS % 256 ? 0 : 1;
}
