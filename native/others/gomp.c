/* A sum in a loop of OpenMP's, with a counter for each thread: side by side, or with -DAPART each on a line of its own. */
#include <omp.h>
#include <stdio.h>

#ifdef APART
#define STEP 8
#else
#define STEP 1
#endif
static _Alignas(64) volatile long counts[8 * STEP];
static int table[1 << 16];

int main(void)
{
    long sum = 0;
#pragma omp parallel for num_threads(4) reduction(+ : sum)
    for (int i = 0; i < 1 << 16; i++) {
        table[i] = i % 7;
        counts[omp_get_thread_num() * STEP] += table[i] == 3;
        sum += table[i];
    }
    for (int i = 1; i < 8; i++)
        counts[0] += counts[i * STEP];
    printf("sum %ld, of them 3: %ld\n", sum, counts[0]);
    return 0;
}
