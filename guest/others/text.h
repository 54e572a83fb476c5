// A text of so many bytes, the same each time: words that come again, in a random order.
#include <stdint.h>
#include <stdlib.h>
#include <string.h>

static char *made_text(size_t size)
{
    static const char *const words[] = {"line ", "cache ", "hart ", "false sharing ", "a ", "of the ", "takes ", "word ", "two ", "and ", "0x", "\n"};
    char *text = malloc(size);
    uint32_t random = 1;
    size_t at = 0;
    if (text == NULL)
        exit(9);
    while (at < size) {
        random = random * 1103515245 + 12345;
        const char *word = words[(random >> 16) % (sizeof words / sizeof *words)];
        size_t length = strlen(word) < size - at ? strlen(word) : size - at;
        memcpy(text + at, word, length);
        at += length;
    }
    return text;
}
