// What a call that can't be had does where a program was built with -DPREDATOR_REFUSE_AT_RUN, a function for each reason.
#include "../predator.h"
#include <predator_missing.h>

static size_t put(char *to, const char *text)
{
    size_t count = 0;
    for (; text[count] != 0; count++)
        to[count] = text[count];
    return count;
}

static _Noreturn void refuse(const char *why, uintptr_t from)
{
    char line[256];
    size_t count = put(line, "the call before 0x");
    for (int shift = 28; shift >= 0; shift -= 4)
        line[count++] = "0123456789abcdef"[from >> shift & 15];
    count += put(line + count, " can't be had: ");
    count += put(line + count, why);
    line[count++] = '\n';
    predator_write(2, line, count);
    predator_exit_group(134);
}

#undef PREDATOR_MISSING
#define PREDATOR_MISSING(kind, why)                                                                                                        \
    _Noreturn void predator_missing_##kind(void);                                                                                          \
    _Noreturn void predator_missing_##kind(void)                                                                                           \
    {                                                                                                                                      \
        refuse(why, (uintptr_t)__builtin_return_address(0));                                                                               \
    }

PREDATOR_NO_CANCEL
PREDATOR_NO_SIGNAL
PREDATOR_NO_CLOCK
PREDATOR_NO_TIME
PREDATOR_NO_STACK
PREDATOR_NO_ROBUST
PREDATOR_NO_PRIORITY
PREDATOR_NO_FORK
PREDATOR_NO_PROCESS
PREDATOR_NO_NAME
PREDATOR_NO_FILE
PREDATOR_NO_SHARED
PREDATOR_NO_REMAP
