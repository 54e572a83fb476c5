/* Runs within a driver, beside an allocator that has C++'s `operator new` itself: notes the blocks
   that this hands out and takes back, as the recorder's own wrappers do for malloc and its like. It
   is compiled for one library: SONAME is its name as valgrind spells it (libraries.py,
   `encode_soname`).

   A block that both have noted is noted twice at one place; the first of the two has no access, and
   isn't counted. */
#include <stddef.h>

#include "../tool/requests.h"

#define NOTE(what, block, size)                                                                    \
    VALGRIND_DO_CLIENT_REQUEST_STMT(PREDATOR_REQUEST_##what, block, size, 0, 0, 0)
#define NAMED(name) I_WRAP_SONAME_FNNAME_ZU(SONAME, name)

/* `operator new`, whose first parameter is the size: of one, two and three parameters. */
#define NEW(name, parameters, call)                                                                \
    void *NAMED(name) parameters;                                                                  \
    void *NAMED(name) parameters                                                                   \
    {                                                                                              \
        OrigFn own;                                                                                \
        void *block;                                                                               \
        VALGRIND_GET_ORIG_FN(own);                                                                 \
        call;                                                                                      \
        if (block)                                                                                 \
            NOTE(BLOCK, block, size);                                                              \
        return block;                                                                              \
    }
#define NEW_1(name) NEW(name, (size_t size), CALL_FN_W_W(block, own, size))
#define NEW_2(name) NEW(name, (size_t size, size_t second), CALL_FN_W_WW(block, own, size, second))
#define NEW_3(name)                                                                                \
    NEW(name, (size_t size, size_t second, size_t third),                                          \
        CALL_FN_W_WWW(block, own, size, second, third))

/* `operator delete`, whose first parameter is the block. */
#define DELETE(name, parameters, call)                                                             \
    void NAMED(name) parameters;                                                                   \
    void NAMED(name) parameters                                                                    \
    {                                                                                              \
        OrigFn own;                                                                                \
        VALGRIND_GET_ORIG_FN(own);                                                                 \
        if (block)                                                                                 \
            NOTE(FREE, block, 0);                                                                  \
        call;                                                                                      \
    }
#define DELETE_1(name) DELETE(name, (void *block), CALL_FN_v_W(own, block))
#define DELETE_2(name) DELETE(name, (void *block, size_t second), CALL_FN_v_WW(own, block, second))
#define DELETE_3(name)                                                                             \
    DELETE(name, (void *block, size_t second, size_t third),                                       \
           CALL_FN_v_WWW(own, block, second, third))

NEW_1(_Znwm)
NEW_1(_Znam)
NEW_2(_ZnwmRKSt9nothrow_t)
NEW_2(_ZnamRKSt9nothrow_t)
NEW_2(_ZnwmSt11align_val_t)
NEW_2(_ZnamSt11align_val_t)
NEW_3(_ZnwmSt11align_val_tRKSt9nothrow_t)
NEW_3(_ZnamSt11align_val_tRKSt9nothrow_t)
DELETE_1(_ZdlPv)
DELETE_1(_ZdaPv)
DELETE_2(_ZdlPvm)
DELETE_2(_ZdaPvm)
DELETE_2(_ZdlPvRKSt9nothrow_t)
DELETE_2(_ZdaPvRKSt9nothrow_t)
DELETE_2(_ZdlPvSt11align_val_t)
DELETE_2(_ZdaPvSt11align_val_t)
DELETE_3(_ZdlPvmSt11align_val_t)
DELETE_3(_ZdaPvmSt11align_val_t)
