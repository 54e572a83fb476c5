// Blocks at multiples of more than 16. The heap's block is then larger, and begins before; that of the report is what was asked for.
#include "heap.h"
#include <stdlib.h>

extern const char predator_malloc;
const char *const predator_aligned_wants __attribute__((used)) = &predator_malloc;

void *aligned_alloc(size_t align, size_t size)
{
    if (align == 0 || (align & (align - 1)) != 0) {
        errno = EINVAL;
        return NULL;
    }
    return align <= 16 && &predator_keeps_sizes == NULL ? heap_alloc(size) : fronted(align < 16 ? 16 : align, size);
}

void *memalign(size_t align, size_t size)
{
    return aligned_alloc(align, size);
}

int posix_memalign(void **address, size_t align, size_t size)
{
    int before = errno;
    void *block = align % sizeof(void *) != 0 ? (errno = EINVAL, NULL) : aligned_alloc(align, size);
    int error = errno;
    errno = before;
    if (block == NULL)
        return error;
    *address = block;
    return 0;
}
