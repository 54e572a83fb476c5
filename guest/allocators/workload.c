// One workload for every allocator. Each thread asks for blocks, writes to them for a while, gives them back and asks again. At the end
// all threads hold blocks at the same time, and the program puts out where these lie: `block ADDRESS SIZE THREAD`.
//
// PASSED: before, the first thread asks for blocks for all threads in a row, and each thread begins by giving back what it was
// handed. MALLOC and FREE are the allocator's functions.
#include "../studies/study.h"
#include <stdio.h>

#ifndef MALLOC
#define MALLOC malloc
#define FREE free
#endif

#define HELD 4
#define ROUNDS 12
#define WRITES 40

void *MALLOC(size_t size);
void FREE(void *block);

static const size_t sizes[HELD] = {8, 16, 24, 40};
// In lines of its own, so that what the allocator has beside it isn't taken with it.
static struct {
    _Alignas(256) void *given[WORKERS][HELD];
    pthread_barrier_t barrier;
} shared;

static void ask(void **held)
{
    for (int i = 0; i < HELD; i++)
        if ((held[i] = MALLOC(sizes[i])) == NULL)
            exit(3);
}

static void *work(void *argument)
{
    void *held[HELD];
    uintptr_t thread = (uintptr_t)argument;
#ifdef PASSED
    memcpy(held, shared.given[thread], sizeof held);
#else
    ask(held);
#endif
    for (int round = 0; round < ROUNDS; round++) {
        for (int i = 0; i < WRITES; i++)
            for (int at = 0; at < HELD; at++)
                *(volatile uint32_t *)held[at] += 1;
        for (int i = 0; i < HELD; i++)
            FREE(held[i]);
        ask(held);
    }
    memcpy(shared.given[thread], held, sizeof held);
    pthread_barrier_wait(&shared.barrier);
    return NULL;
}

int main(void)
{
    pthread_barrier_init(&shared.barrier, NULL, WORKERS);
#ifdef PASSED
    for (int i = 0; i < WORKERS; i++)
        ask(shared.given[i]);
#endif
    run_threads(work);
    for (int thread = 0; thread < WORKERS; thread++)
        for (int i = 0; i < HELD; i++)
            printf("block %lx %u %d\n", (unsigned long)(uintptr_t)shared.given[thread][i], (unsigned)sizes[i], thread);
    return 0;
}
