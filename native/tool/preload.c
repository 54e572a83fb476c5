/* Runs within the program: a wrapper around each function that makes or frees blocks. The function
   itself runs as it is, since where it puts the blocks is what is looked at. A block is reported
   once it is there, and its end before it is freed: between the two no other thread can have its
   address. */
#include <stddef.h>

#include "requests.h"

#define TELL(what, block, size)                                                                    \
    VALGRIND_DO_CLIENT_REQUEST_STMT(PREDATOR_REQUEST_##what, block, size, 0, 0, 0)
/* The function of this name in any file of the program. */
#define NAMED(name) I_WRAP_SONAME_FNNAME_ZU(VgSoSynsomalloc, name)

void *NAMED(malloc)(size_t size);
void *NAMED(malloc)(size_t size)
{
    OrigFn own;
    void *block;
    VALGRIND_GET_ORIG_FN(own);
    CALL_FN_W_W(block, own, size);
    if (block)
        TELL(BLOCK, block, size);
    return block;
}

void *NAMED(calloc)(size_t count, size_t each);
void *NAMED(calloc)(size_t count, size_t each)
{
    OrigFn own;
    void *block;
    VALGRIND_GET_ORIG_FN(own);
    CALL_FN_W_WW(block, own, count, each);
    if (block)
        TELL(BLOCK, block, count * each);
    return block;
}

void *NAMED(realloc)(void *old, size_t size);
void *NAMED(realloc)(void *old, size_t size)
{
    OrigFn own;
    void *block;
    VALGRIND_GET_ORIG_FN(own);
    if (old)
        TELL(FREE, old, 0);
    CALL_FN_W_WW(block, own, old, size);
    if (block)
        TELL(BLOCK, block, size);
    else if (old && size > 0)
        TELL(REVIVE, old, 0);
    return block;
}

#define ALIGNED(name)                                                                              \
    void *NAMED(name)(size_t align, size_t size);                                                  \
    void *NAMED(name)(size_t align, size_t size)                                                   \
    {                                                                                              \
        OrigFn own;                                                                                \
        void *block;                                                                               \
        VALGRIND_GET_ORIG_FN(own);                                                                 \
        CALL_FN_W_WW(block, own, align, size);                                                     \
        if (block)                                                                                 \
            TELL(BLOCK, block, size);                                                              \
        return block;                                                                              \
    }

ALIGNED(memalign)
ALIGNED(aligned_alloc)

#define PAGED(name)                                                                                \
    void *NAMED(name)(size_t size);                                                                \
    void *NAMED(name)(size_t size)                                                                 \
    {                                                                                              \
        OrigFn own;                                                                                \
        void *block;                                                                               \
        VALGRIND_GET_ORIG_FN(own);                                                                 \
        CALL_FN_W_W(block, own, size);                                                             \
        if (block)                                                                                 \
            TELL(BLOCK, block, size);                                                              \
        return block;                                                                              \
    }

PAGED(valloc)
PAGED(pvalloc)

int NAMED(posix_memalign)(void **out, size_t align, size_t size);
int NAMED(posix_memalign)(void **out, size_t align, size_t size)
{
    OrigFn own;
    long status;
    VALGRIND_GET_ORIG_FN(own);
    CALL_FN_W_WWW(status, own, out, align, size);
    if ((int)status == 0)
        TELL(BLOCK, *out, size);
    return (int)status;
}

void NAMED(free)(void *block);
void NAMED(free)(void *block)
{
    OrigFn own;
    VALGRIND_GET_ORIG_FN(own);
    if (block)
        TELL(FREE, block, 0);
    CALL_FN_v_W(own, block);
}

static void here(void) __attribute__((constructor));
static void here(void) { TELL(HERE, 0, 0); }
