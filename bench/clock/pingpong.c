// How long a line takes from one processor to another: two threads, pinned to the two that are
// named, hand one word to and fro. It prints the middle of 15 tries, in nanoseconds for one way.
//
//     gcc -O2 -pthread pingpong.c -o pingpong && ./pingpong 0 1
#define _GNU_SOURCE
#include <pthread.h>
#include <sched.h>
#include <stdint.h>
#include <stdio.h>
#include <stdlib.h>
#include <time.h>

#define TRIES 15
#define TIMES 20000

static struct {
    uint32_t word;
} turn __attribute__((aligned(256)));
static int cpus[2] __attribute__((aligned(256)));

static void pin(int cpu)
{
    cpu_set_t set;
    CPU_ZERO(&set);
    CPU_SET(cpu, &set);
    if (sched_setaffinity(0, sizeof set, &set) != 0)
        exit(2);
}

// Waits for its turn, so often, and gives it back.
static void play(uint32_t own)
{
    for (int i = 0; i < TIMES; i++) {
        while (__atomic_load_n(&turn.word, __ATOMIC_ACQUIRE) != own)
            ;
        __atomic_store_n(&turn.word, 1 - own, __ATOMIC_RELEASE);
    }
}

static void *other(void *unused)
{
    (void)unused;
    pin(cpus[1]);
    for (int i = 0; i < TRIES; i++)
        play(1);
    return NULL;
}

static int is_less(const void *one, const void *two)
{
    double first = *(const double *)one, second = *(const double *)two;
    return (first > second) - (first < second);
}

int main(int count, char **words)
{
    double took[TRIES];
    pthread_t thread;
    if (count != 3)
        return 1;
    for (int i = 0; i < 2; i++)
        cpus[i] = atoi(words[i + 1]);
    if (pthread_create(&thread, NULL, other, NULL) != 0)
        return 1;
    pin(cpus[0]);
    for (int i = 0; i < TRIES; i++) {
        struct timespec begin, end;
        clock_gettime(CLOCK_MONOTONIC, &begin);
        play(0);
        clock_gettime(CLOCK_MONOTONIC, &end);
        took[i] = ((end.tv_sec - begin.tv_sec) * 1e9 + (double)(end.tv_nsec - begin.tv_nsec)) /
                  (2.0 * TIMES);
    }
    pthread_join(thread, NULL);
    qsort(took, TRIES, sizeof *took, is_less);
    printf("%.1f\n", took[TRIES / 2]);
    return 0;
}
