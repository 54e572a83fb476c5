// Is anything cleared? The first block of 16 bytes or more that the linker gives this malloc (--wrap) is set, freed and asked for again; and before
// the first thread starts, the lower ends of the other harts' stacks are set, to be looked at when the program ends.
#include <pthread.h>
#include <stdint.h>
#include <stdio.h>
#include <stdlib.h>
#include <string.h>

#define HARTS 8
#define STACK 65536u
#define SIZE 256u

void *__real_malloc(size_t size);
void *__wrap_malloc(size_t size);
int __real_pthread_create(pthread_t *thread, const pthread_attr_t *attr, void *(*run)(void *), void *argument);
int __wrap_pthread_create(pthread_t *thread, const pthread_attr_t *attr, void *(*run)(void *), void *argument);

static unsigned blocks, blocks_cleared, threads;

static int is_set(const unsigned char *bytes, size_t size)
{
    while (size > 0 && bytes[size - 1] == 0x5A)
        size--;
    return size == 0;
}

void *__wrap_malloc(size_t size)
{
    unsigned char *block = __real_malloc(size), *volatile first = block;
    if (blocks > 0 || size < 16 || block == NULL)
        return block;
    blocks = 1;
    memset(first, 0x5A, size);
    free(block);
    block = __real_malloc(size);
    blocks_cleared = block != first || !is_set(block, size);
    return block;
}

static unsigned char *lower_end(int hart)
{
    return (unsigned char *)(TOP - ((unsigned)hart + 1) * STACK);
}

int __wrap_pthread_create(pthread_t *thread, const pthread_attr_t *attr, void *(*run)(void *), void *argument)
{
    if (threads++ == 0)
        for (int i = 1; i < HARTS; i++)
            memset(lower_end(i), 0x5A, SIZE);
    return __real_pthread_create(thread, attr, run, argument);
}

__attribute__((destructor)) static void print_end(void)
{
    int stacks_cleared = 0;
    for (int i = 1; threads > 0 && i < HARTS; i++)
        stacks_cleared += !is_set(lower_end(i), SIZE);
    printf("kept: %u blocks, %u cleared; %s, %d stacks cleared\n", blocks, blocks_cleared, threads > 0 ? "threads" : "no thread", stacks_cleared);
}
