// Each munmap of a part of a mapping, in a program that the linker gives these two (--wrap): is the part kept, with its bytes, and in no later
// mapping? How many were stands in a line at the program's end.
#include <stdio.h>
#include <string.h>
#include <sys/mman.h>

#define MAPPINGS 64
#define PAGE 4096u

void *__real_mmap(void *wish, size_t length, int protection, int flags, int file, off_t offset);
void *__wrap_mmap(void *wish, size_t length, int protection, int flags, int file, off_t offset);
int __real_munmap(void *address, size_t length);
int __wrap_munmap(void *address, size_t length);

static struct {
    char *first, *end;
} mappings[MAPPINGS];
static int parts, lost;

static char *end_of(char *first, size_t length)
{
    return first + (length + PAGE - 1) / PAGE * PAGE;
}

void *__wrap_mmap(void *wish, size_t length, int protection, int flags, int file, off_t offset)
{
    char *first = __real_mmap(wish, length, protection, flags, file, offset), *end = end_of(first, length);
    int free = -1;
    if (first == MAP_FAILED)
        return first;
    for (int i = 0; i < MAPPINGS; i++) {
        if (mappings[i].first == NULL)
            free = i;
        else if (first < mappings[i].end && mappings[i].first < end)
            lost++;
    }
    if (free < 0)
        return MAP_FAILED;
    mappings[free].first = first, mappings[free].end = end;
    return first;
}

int __wrap_munmap(void *address, size_t length)
{
    char *from = address, *end = end_of(from, length), *other;
    int part = 0, status;
    for (int i = 0; i < MAPPINGS; i++) {
        if (mappings[i].first == NULL || from >= mappings[i].end || mappings[i].first >= end)
            continue;
        if (from <= mappings[i].first && mappings[i].end <= end)
            mappings[i].first = NULL;
        else
            part = 1;
    }
    if (part)
        memset(from, 0x5A, (size_t)(end - from));
    status = __real_munmap(address, length);
    if (part) {
        // (what would come there is cleared)
        other = __wrap_mmap(NULL, length, PROT_READ | PROT_WRITE, MAP_PRIVATE | MAP_ANONYMOUS, -1, 0);
        for (char *at = from; at < end; at++)
            part &= *at == 0x5A;
        parts++;
        lost += !part || status != 0;
        if (other != MAP_FAILED)
            __wrap_munmap(other, length);
    }
    return status;
}

__attribute__((destructor)) static void print_end(void)
{
    printf("munmap: %s, %d lost\n", parts > 0 ? "of parts" : "of no part", lost);
}
