/* Two threads count for some seconds while they are recorded, and their words share a line. */
#include <pthread.h>
#include <stdio.h>

static long counts[8] __attribute__((aligned(64)));

static void *work(void *own)
{
    for (int it = 0; it < 300000; it++)
        ++*(volatile long *)own;
    return 0;
}

int main(void)
{
    pthread_t ids[2];
    for (int it = 0; it < 2; it++)
        pthread_create(ids + it, 0, work, counts + it);
    for (int it = 0; it < 2; it++)
        pthread_join(ids[it], 0);
    printf("sum %ld\n", counts[0] + counts[1]);
    return 0;
}
