/* Four threads of different real-time priorities take one lock in turns. Without the right to have
 * them it says so, and runs as it is. */
#include <pthread.h>
#include <sched.h>
#include <stdio.h>

static volatile long counters[8];
static pthread_mutex_t lock = PTHREAD_MUTEX_INITIALIZER;

static void *add(void *mine)
{
    volatile long *count = mine;
    struct sched_param priority = {.sched_priority = 1 + (int)(count - counters)};
    if (pthread_setschedparam(pthread_self(), SCHED_FIFO, &priority))
        fputs("no rights\n", stderr);
    for (int i = 0; i < 2000; i++) {
        pthread_mutex_lock(&lock);
        *count = *count + 1;
        pthread_mutex_unlock(&lock);
    }
    return 0;
}

int main(void)
{
    pthread_t thread[4];
    for (int i = 0; i < 4; i++)
        if (pthread_create(&thread[i], 0, add, (void *)&counters[i]))
            return 3;
    for (int i = 0; i < 4; i++)
        pthread_join(thread[i], 0);
    printf("sum %ld\n", counters[0] + counters[1] + counters[2] + counters[3]);
    return 0;
}
