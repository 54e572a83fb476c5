/* What has to come out the same on every run, however busy the machine is: a lock that other programs might share, a file that is written and
   read, moments that are passed by the processor's counter of time, a counter for each processor, and threads that end and are made anew. */
#define _GNU_SOURCE
#include <pthread.h>
#include <sched.h>
#include <stdio.h>
#include <stdlib.h>
#include <sys/mman.h>
#include <unistd.h>
#include <x86intrin.h>

#define THREADS 4
#define ROUNDS 40

static struct shared {
    pthread_mutex_t lock;
    long count;
} *shared;
static long passed[THREADS], on[1024];
static FILE *file;

static void pass_a_moment(long me)
{
    unsigned long end = __rdtsc() + 5000;
    while (__rdtsc() < end)
        passed[me]++;
}

static void *work(void *arg)
{
    long me = (long)arg;
    for (int i = 0; i < ROUNDS; i++) {
        char byte = 'a';
        pthread_mutex_lock(&shared->lock);
        shared->count++;
        pthread_mutex_unlock(&shared->lock);
        if (pwrite(fileno(file), &byte, 1, me) != 1 || pread(fileno(file), &byte, 1, me) != 1)
            abort();
        pass_a_moment(me);
        on[sched_getcpu()]++;
    }
    return 0;
}

int main(void)
{
    pthread_mutexattr_t kind;
    file = tmpfile();
    shared = mmap(0, sizeof *shared, PROT_READ | PROT_WRITE, MAP_SHARED | MAP_ANONYMOUS, -1, 0);
    pthread_mutexattr_init(&kind);
    pthread_mutexattr_setpshared(&kind, PTHREAD_PROCESS_SHARED);
    pthread_mutex_init(&shared->lock, &kind);
    for (int round = 0; round < 5; round++) {
        pthread_t thread[THREADS];
        for (long i = 0; i < THREADS; i++)
            pthread_create(&thread[i], 0, work, (void *)i);
        for (int i = 0; i < THREADS; i++)
            pthread_join(thread[i], 0);
    }
    printf("count %ld passed %ld\n", shared->count, passed[0]);
    return shared->count == 5 * THREADS * ROUNDS ? 0 : 1;
}
