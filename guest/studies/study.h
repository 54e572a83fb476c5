// What the studies have in common.
#ifndef STUDY_H
#define STUDY_H

#include <pthread.h>
#include <stddef.h>
#include <stdint.h>
#include <stdlib.h>
#include <string.h>
#include <unistd.h>

// Threads beside the first, which makes them and waits for them.
#define WORKERS 7

// Gives an element lines of its own, of any size up to 128 bytes.
#define OWN_LINES _Alignas(128)

// Zeroed bytes that begin so many bytes behind a multiple of 256. An allocator that knows nothing of lines gives any place.
static inline void *placed(size_t size, size_t place)
{
    char *block = calloc(1, size + 256 + place);
    if (block == NULL)
        exit(3);
    return block + (-(uintptr_t)block & 255) + place;
}

// Starts the threads, which get their numbers, and waits for them.
static inline void run_threads(void *(*work)(void *))
{
    pthread_t threads[WORKERS];
    for (uintptr_t i = 0; i < WORKERS; i++)
        if (pthread_create(&threads[i], NULL, work, (void *)i) != 0)
            exit(4);
    for (int i = 0; i < WORKERS; i++)
        pthread_join(threads[i], NULL);
}

// Puts out a name and a number. (`printf` would be most of the program.)
static inline void tell(const char *name, long number)
{
    char line[64], *at = line + sizeof line;
    unsigned long rest = number < 0 ? -(unsigned long)number : (unsigned long)number;
    *--at = '\n';
    do {
        *--at = (char)('0' + rest % 10);
        rest /= 10;
    } while (rest > 0);
    if (number < 0)
        *--at = '-';
    *--at = ' ';
    at -= strlen(name);
    memcpy(at, name, strlen(name));
    if (write(1, at, (size_t)(line + sizeof line - at)) < 0)
        exit(5);
}

// Numbers that look random, the same in each run.
static inline uint32_t next_random(uint32_t *state)
{
    *state = *state * 1664525u + 1013904223u;
    return *state >> 8;
}

#endif
