// A table of Collatz numbers by klib's kt_for: each call of `measure` finds BLOCK of them, and which thread makes it is up to kt_for.
#include <kthread.h>
#include <stdio.h>

#ifndef THREADS
#define THREADS 7
#endif
#define NUMBERS 3584
#ifndef BLOCK
#define BLOCK 1
#endif

static _Alignas(64) int lengths[NUMBERS];

static void measure(void *data, long block, int thread)
{
    (void)data, (void)thread;
    for (long i = block * BLOCK; i < (block + 1) * BLOCK; i++) {
        int length = 0;
        for (unsigned long n = i + 1; n != 1 && length < 16; length++)
            n = n & 1 ? 3 * n + 1 : n / 2;
        lengths[i] = length;
    }
}

int main(void)
{
    long sum = 0;
    kt_for(THREADS, measure, NULL, NUMBERS / BLOCK);
    for (int i = 0; i < NUMBERS; i++)
        sum += lengths[i];
    printf("%ld\n", sum);
    return 0;
}
