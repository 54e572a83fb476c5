// Four harts, and a variable for each verdict: who reads and writes a word decides it, not what the word means.
#include "predator.h"

#define HARTS 4
#define TIMES 1000

// Each hart has a word of its own in the line, and no other hart looks at it: `false`.
ALONE volatile uint32_t apart[HARTS];

// All harts add to both words: `true`.
ALONE uint32_t together[2];

// A word that one hart writes and all others read: `true` as well, for each of its words is needed by several harts.
ALONE volatile uint32_t told;

// One word that all harts add to, and beside it a word for each: `mixed`.
ALONE struct {
    uint32_t all;
    volatile uint32_t own[HARTS];
} both;

// Written by hart 0 before the others begin, and read by all: never taken from anyone, and not listed.
ALONE volatile uint32_t given[HARTS];

static void add(uint32_t *word, uint32_t number)
{
    __atomic_fetch_add(word, number, __ATOMIC_RELAXED);
}

static int run(void *argument)
{
    uint32_t hart = (uint32_t)argument, seen = 0;
    for (uint32_t i = 0; i < TIMES; i++) {
        apart[hart] += given[hart];
        add(&together[0], 1);
        add(&together[1], hart);
        if (hart == 0)
            told = i;
        else
            seen += told < TIMES;
        add(&both.all, 1);
        both.own[hart] += 1;
    }
    return apart[hart] == TIMES && both.own[hart] == TIMES && (hart == 0 || seen == TIMES) ? 0 : 1;
}

int main(void)
{
    int harts[HARTS];
    for (int i = 0; i < HARTS; i++)
        given[i] = 1;
    for (uint32_t i = 1; i < HARTS; i++)
        harts[i] = predator_spawn(run, (void *)i);
    int wrong = run((void *)0);
    for (int i = 1; i < HARTS; i++)
        wrong += predator_join(harts[i]);
    print("together ");
    print_number(together[0]);
    print(" ");
    print_number(together[1]);
    print(" both ");
    print_number(both.all);
    print("\n");
    return wrong != 0 || together[0] != HARTS * TIMES || both.all != HARTS * TIMES;
}
