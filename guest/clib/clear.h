// Clearing memory that another system would give cleared. Only what isn't 0 yet is written, so that fresh memory is read and no line of it
// is taken from anyone.
#ifndef PREDATOR_CLEAR_H
#define PREDATOR_CLEAR_H

#include <stddef.h>
#include <stdint.h>

// (both are multiples of 4)
static inline void clear_words(void *from, size_t size)
{
    volatile uint32_t *word = from, *end = (volatile uint32_t *)((char *)from + size);
    while (end - word >= 4 && (word[0] | word[1] | word[2] | word[3]) == 0)
        word += 4;
    for (; word < end; word++)
        if (*word != 0)
            *word = 0;
}

#endif
