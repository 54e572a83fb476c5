/* Threads that add to neighbouring words of a line: counters [THREADS [ADDS]]. With -DAPART each word has a line of its own. */
#include <pthread.h>
#include <stdint.h>
#include <stdio.h>
#include <stdlib.h>

#ifdef APART
struct own { volatile uint32_t count; } __attribute__((aligned(128)));
#else
struct own { volatile uint32_t count; };
#endif
static struct own counters[400] __attribute__((aligned(128)));
static long adds = 10000;

static void *add(void *mine)
{
    volatile uint32_t *count = &((struct own *)mine)->count;
    for (long i = 0; i < adds; i++)
        *count = *count + 1;
    return 0;
}

int main(int argc, char **argv)
{
    int threads = argc > 1 ? atoi(argv[1]) : 8;
    pthread_t thread[400];
    long sum = 0;
    if (argc > 2)
        adds = atol(argv[2]);
    for (int i = 0; i < threads; i++)
        if (pthread_create(&thread[i], 0, add, &counters[i]))
            return 3;
    for (int i = 0; i < threads; i++)
        pthread_join(thread[i], 0);
    for (int i = 0; i < threads; i++)
        sum += counters[i].count;
    printf("sum %ld\n", sum);
    return 0;
}
