// Two blocks of a program that the linker gives this malloc (--wrap) are written by two threads each, before the program gets them: one of its
// first 2^19 that have bytes, and one behind these. So the report has lines with both.
#include <pthread.h>
#include <stdio.h>
#include <stdlib.h>

// (a block is noted by two calls, one without bytes by one, and a thread that starts by one too)
#define CALLS (1u << 20)
#define NEAR 200u

void *__real_malloc(size_t size);
void *__wrap_malloc(size_t size);

static void *work(void *argument)
{
    volatile unsigned *word = argument;
    for (int i = 0; i < 2000; i++)
        *word = *word + 1;
    return NULL;
}

void *__wrap_malloc(size_t size)
{
    static const unsigned from[] = {CALLS - NEAR, CALLS + NEAR};
    static unsigned calls, shown;
    void *block = __real_malloc(size);
    if (block != NULL)
        calls += size > 0 ? 2 : 1;
    if (block != NULL && size >= 4 && shown < 2 && calls >= from[shown]) {
        pthread_t other;
        printf("malloc: block at %p, %u bytes\n", block, (unsigned)size);
        shown++;
        pthread_create(&other, NULL, work, block);
        work(block);
        pthread_join(other, NULL);
    }
    return block;
}
