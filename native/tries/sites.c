/* Instructions and calls that are hard to name: in a function that is inlined, in a section of code of another name, and in a program
   that was stripped. */
#include <pthread.h>
#include <stdlib.h>

static volatile unsigned counts[16] __attribute__((aligned(128)));

static inline __attribute__((always_inline)) void bump(volatile unsigned *it)
{
    *it = *it + 1;
}

static __attribute__((noinline, section("elsewhere"))) unsigned *make(void)
{
    return malloc(24);
}

static void *work(void *mine)
{
    volatile unsigned *block = make();
    for (int i = 0; i < 2000; i++) {
        bump(mine);
        block[0] = i;
    }
    free((void *)block);
    return 0;
}

int main(void)
{
    pthread_t one, two;
    pthread_create(&one, 0, work, (void *)&counts[0]);
    pthread_create(&two, 0, work, (void *)&counts[1]);
    pthread_join(one, 0);
    pthread_join(two, 0);
    return 0;
}
