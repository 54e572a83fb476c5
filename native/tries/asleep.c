/* Threads that wait for each other in a call of the system that nothing here looks at: four hand a byte round, by pipes. */
#include <pthread.h>
#include <stdio.h>
#include <sys/uio.h>
#include <unistd.h>

#define THREADS 4
#define ROUNDS 3

static int pipes[THREADS][2];
static volatile int counters[16] __attribute__((aligned(128)));

static void *hand_on(void *arg)
{
    long me = (long)arg;
    char byte = 0;
    struct iovec one = {&byte, 1};
    for (int round = 0; round < ROUNDS; round++) {
        if (readv(pipes[me][0], &one, 1) != 1)
            return (void *)1;
        for (int i = 0; i < 1000; i++)
            counters[me] = counters[me] + 1;
        if (writev(pipes[(me + 1) % THREADS][1], &one, 1) != 1)
            return (void *)1;
    }
    return 0;
}

int main(void)
{
    pthread_t thread[THREADS];
    void *bad;
    long sum = 0;
    for (int i = 0; i < THREADS; i++)
        if (pipe(pipes[i]))
            return 3;
    for (long i = 0; i < THREADS; i++)
        pthread_create(&thread[i], 0, hand_on, (void *)i);
    if (write(pipes[0][1], "", 1) != 1)
        return 4;
    for (int i = 0; i < THREADS; i++) {
        pthread_join(thread[i], &bad);
        sum -= bad ? 1 : 0;
    }
    for (int i = 0; i < THREADS; i++)
        sum += counters[i];
    printf("sum %ld\n", sum);
    return 0;
}
