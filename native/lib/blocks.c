/* The functions that make and free blocks: the C library's own run, and the blocks that they
 * make are recorded. */
#include "runtime.h"

extern void *__libc_malloc(size_t), *__libc_calloc(size_t, size_t), *__libc_realloc(void *, size_t),
    *__libc_memalign(size_t, size_t);
extern void __libc_free(void *);

static __thread Addr call_of_new LOCAL;

static void *made(void *block, size_t size, Addr caller)
{
    if (block && self >= 0 && !inside) {
        hold();
        inside = recording = 1;
        call_of_block = (call_of_new ? call_of_new : caller) - 1;
        trace_block(self + 1, (Addr)block, size);
        inside = recording = 0;
    }
    call_of_new = 0;
    return block;
}
static void ends_block(void *block)
{
    if (!block || self < 0 || inside)
        return;
    hold();
    inside = recording = 1;
    trace_free(self + 1, (Addr)block);
    inside = recording = 0;
}
SHOWN void *malloc(size_t size) { return made(__libc_malloc(size), size, CALLER); }
SHOWN void *calloc(size_t count, size_t each)
{
    return made(__libc_calloc(count, each), count * each, CALLER);
}
SHOWN void *memalign(size_t align, size_t size)
{
    return made(__libc_memalign(align, size), size, CALLER);
}
SHOWN void *aligned_alloc(size_t align, size_t size)
{
    return made(__libc_memalign(align, size), size, CALLER);
}
SHOWN int posix_memalign(void **out, size_t align, size_t size)
{
    if (align % sizeof(void *) || align == 0 || (align & (align - 1)))
        return EINVAL;
    void *block = made(__libc_memalign(align, size), size, CALLER);
    if (!block)
        return ENOMEM;
    *out = block;
    return 0;
}
SHOWN void *realloc(void *old, size_t size)
{
    ends_block(old);
    void *block = __libc_realloc(old, size);
    if (!block && old && size > 0 && self >= 0 && !inside)
        trace_revive(self + 1, (Addr)old);
    return made(block, size, CALLER);
}
SHOWN void free(void *block)
{
    ends_block(block);
    __libc_free(block);
}

/* C++'s `new` makes a block by `malloc`, and its caller is whose block it is. */
#define NEW(name)                                                                                  \
    SHOWN void *name(size_t size);                                                                 \
    SHOWN void *name(size_t size)                                                                  \
    {                                                                                              \
        static void *(*own)(size_t);                                                               \
        if (!own)                                                                                  \
            own = (void *(*)(size_t))dlsym(RTLD_NEXT, #name);                                      \
        call_of_new = CALLER;                                                                      \
        return own(size);                                                                          \
    }
NEW(_Znwm)
NEW(_Znam)
