// What a compiler calls by itself, and the printing of text and of numbers.
#include "predator.h"

#ifndef PREDATOR_C_LIBRARY
void *memcpy(void *restrict to, const void *restrict from, size_t count)
{
    char *next = to;
    const char *bytes = from;
    while (count-- > 0)
        *next++ = *bytes++;
    return to;
}

void *memmove(void *to, const void *from, size_t count)
{
    char *next = to;
    const char *bytes = from;
    if (next <= bytes)
        return memcpy(to, from, count);
    while (count-- > 0)
        next[count] = bytes[count];
    return to;
}

void *memset(void *to, int byte, size_t count)
{
    char *next = to;
    while (count-- > 0)
        *next++ = (char)byte;
    return to;
}

int memcmp(const void *one, const void *other, size_t count)
{
    const unsigned char *a = one, *b = other;
    for (; count > 0; count--, a++, b++)
        if (*a != *b)
            return *a - *b;
    return 0;
}

size_t strlen(const char *text)
{
    size_t length = 0;
    while (text[length] != 0)
        length++;
    return length;
}

#else
#include <string.h>
#endif

void print(const char *text)
{
    predator_write(1, text, strlen(text));
}

void print_number(uint32_t number)
{
    char digits[10];
    size_t first = sizeof digits;
    do {
        digits[--first] = (char)('0' + number % 10);
        number /= 10;
    } while (number > 0);
    predator_write(1, digits + first, sizeof digits - first);
}
