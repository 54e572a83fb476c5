/* An allocator of its own, for LD_PRELOAD: it gives memory out from a table and takes none back. */
#include <stddef.h>
#include <string.h>

static _Alignas(16) char table[16 << 20];
static size_t used;

void *malloc(size_t size)
{
    size_t from = __atomic_fetch_add(&used, ((size + 15) & ~15UL) + 16, __ATOMIC_RELAXED);
    if (from + size + 16 > sizeof table)
        return 0;
    memcpy(table + from, &size, sizeof size);
    return table + from + 16;
}

void *calloc(size_t count, size_t each) { return malloc(count * each); }
void free(void *block) {}

void *realloc(void *old, size_t size)
{
    void *block = malloc(size);
    size_t before;
    if (old && block) {
        memcpy(&before, (char *)old - 16, sizeof before);
        memcpy(block, old, before < size ? before : size);
    }
    return block;
}
