// Spin locks: what is counted under one is counted once.
//
//> one 480
//> by try 480
#include "check.h"
#include <errno.h>

#define TIMES 60

static pthread_spinlock_t lock;
static volatile uint32_t one, other, by_try;

static void *run(void *argument)
{
    for (int i = 0; i < TIMES; i++) {
        CHECK(pthread_spin_lock(&lock) == 0);
        uint32_t seen = one;
        CHECK(other == seen);
        one = seen + 1;
        other = seen + 1;
        CHECK(pthread_spin_unlock(&lock) == 0);
        int answer;
        while ((answer = pthread_spin_trylock(&lock)) != 0)
            CHECK(answer == EBUSY);
        by_try += 1;
        pthread_spin_unlock(&lock);
    }
    return argument;
}

int main(void)
{
    pthread_spin_init(&lock, PTHREAD_PROCESS_PRIVATE);
    on_all(run);
    show("one", one);
    show("by try", by_try);
    return 0;
}
