// Each call of the function MARKED, for which the linker takes this one (--wrap), stands between a write of `call_begins` and one of `call_ends` of
// the same hart, so that a trace shows what it accesses. How many calls there were, how many answers that aren't 0, and what some of them were
// given first stands in a line at the program's end.
#include <stdatomic.h>
#include <stdio.h>

#define PUT_TOGETHER(kind, name) __##kind##_##name
#define OF(kind, name) PUT_TOGETHER(kind, name)
#define TEXT_OF(name) #name
#define TEXT(name) TEXT_OF(name)

// (whatever it takes, it is in these registers)
typedef unsigned long word;
word OF(real, MARKED)(word a, word b, word c, word d, word e, word f, word g, word h);
word OF(wrap, MARKED)(word a, word b, word c, word d, word e, word f, word g, word h);

__attribute__((weak)) volatile unsigned call_begins, call_ends;

#define GIVEN 8
static atomic_ulong calls, others, given[GIVEN];

static void keep(word it)
{
    for (int i = 0; i < GIVEN; i++) {
        word none = 0;
        if (atomic_compare_exchange_strong(&given[i], &none, it) || none == it)
            return;
    }
}

word OF(wrap, MARKED)(word a, word b, word c, word d, word e, word f, word g, word h)
{
    atomic_fetch_add(&calls, 1);
    keep(a);
    call_begins = 1;
    word answer = OF(real, MARKED)(a, b, c, d, e, f, g, h);
    call_ends = 1;
    if (answer != 0)
        atomic_fetch_add(&others, 1);
    return answer;
}

__attribute__((destructor)) static void print_end(void)
{
    printf("marked: %s, %lu calls, %lu answers other than 0, of", TEXT(MARKED), calls, others);
    for (int i = 0; i < GIVEN && given[i] != 0; i++)
        printf(" 0x%lx", given[i]);
    printf("\n");
}
