// The first call of the function LATE, for which the linker takes this one (--wrap), is late by ROUNDS rounds of two steps each.
#include <stdatomic.h>

#define PUT_TOGETHER(kind, name) __##kind##_##name
#define OF(kind, name) PUT_TOGETHER(kind, name)

int OF(real, LATE)(void *it);
int OF(wrap, LATE)(void *it);

static atomic_int calls;

int OF(wrap, LATE)(void *it)
{
    if (atomic_fetch_add(&calls, 1) == 0)
        for (unsigned rounds = ROUNDS; rounds > 0; rounds--)
            __asm__ volatile("" : "+r"(rounds));
    return OF(real, LATE)(it);
}
