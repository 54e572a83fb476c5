/* Blocks of 24 bytes side by side on the heap, each with the tally of a thread. */
#include <pthread.h>
#include <stdlib.h>

#define THREADS 4

struct tally {
    volatile unsigned seen, sum, spare[4];
};

static __attribute__((noinline)) struct tally *make(void)
{
    struct tally *it = calloc(1, sizeof *it);
    it->spare[0] = 1;
    return it;
}

static void *count(void *mine)
{
    struct tally *own = mine;
    for (unsigned i = 0; i < 3000; i++) {
        own->seen = own->seen + 1;
        own->sum = own->sum + i;
    }
    return 0;
}

int main(void)
{
    struct tally *own[THREADS];
    pthread_t thread[THREADS];
    for (int i = 0; i < THREADS; i++)
        own[i] = make();
    for (int i = 0; i < THREADS; i++)
        pthread_create(&thread[i], 0, count, own[i]);
    for (int i = 0; i < THREADS; i++)
        pthread_join(thread[i], 0);
    return 0;
}
