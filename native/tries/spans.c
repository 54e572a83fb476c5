/* Four threads add to counters of their own in one line, each so many times; with a second word, for ever. */
#include <pthread.h>
#include <stdio.h>
#include <stdlib.h>

static volatile int counts[4];
static long rounds;
static int for_ever;

static void *work(void *arg)
{
    do
        for (long i = 0; i < rounds; i++)
            counts[(long)arg]++;
    while (for_ever);
    return 0;
}

int main(int count, char **words)
{
    pthread_t thread[4];
    rounds = atol(words[1]);
    for_ever = count > 2;
    for (long i = 0; i < 4; i++)
        pthread_create(&thread[i], 0, work, (void *)i);
    for (int i = 0; i < 4; i++)
        pthread_join(thread[i], 0);
    printf("sum %d\n", counts[0] + counts[1] + counts[2] + counts[3]);
    return 0;
}
