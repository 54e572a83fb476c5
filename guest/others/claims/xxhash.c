// A hash of bytes that begin at each place of a word, by xxHash as zstd has it.
#define XXH_INLINE_ALL
#include <stdio.h>
#include <string.h>
#include <xxhash.h>

int main(void)
{
    static char room[128];
    static const char text[] = "words that begin at no multiple of their size, and are looked at four and eight bytes at a time";
    for (int place = 0; place < 4; place++) {
        memcpy(room + place, text, sizeof text);
        printf("%d %08lx %016llx\n", place, (unsigned long)XXH32(room + place, sizeof text, 1),
               (unsigned long long)XXH64(room + place, sizeof text, 1));
    }
    return 0;
}
