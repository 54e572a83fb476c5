// Four harts in a program of predator.h alone, which has no library: each counts by an operation of Concurrency Kit's, or each has a sum that
// gnulib makes.
#include "predator.h"

#define HARTS 4
#define TIMES 500

static unsigned counter;

#ifdef CK
#include <ck_pr.h>

static int work(void *unused)
{
    (void)unused;
    for (int i = 0; i < TIMES; i++)
        ck_pr_inc_uint(&counter);
    return 0;
}
#else
#include "hash-pjw-bare.h"

static int work(void *text)
{
    return hash_pjw_bare(text, 3) % TIMES;
}
#endif

int main(void)
{
    static char texts[HARTS][4] = {"one", "two", "six", "ten"};
    int harts[HARTS];
    for (int i = 0; i < HARTS; i++)
        harts[i] = predator_spawn(work, texts[i]);
    for (int i = 0; i < HARTS; i++)
        counter += predator_join(harts[i]);
    print("counted ");
    print_number(counter);
    print("\n");
    return 5;
}
