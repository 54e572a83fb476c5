// Locks for readers and writers: a reader never sees what a writer has half done, and readers do come together.
//
//> writers 80
#include "check.h"
#include <errno.h>

#define TIMES 40

static pthread_rwlock_t lock = PTHREAD_RWLOCK_INITIALIZER;
static volatile uint32_t one, other;
static uint32_t readers, writers;
static pthread_barrier_t barrier;

static void *run(void *argument)
{
    uintptr_t number = (uintptr_t)argument;
    for (uint32_t i = 0; i < TIMES; i++) {
        if ((number + i) % 4 == 0) {
            int answer = i % 3 == 0 ? pthread_rwlock_trywrlock(&lock) : EBUSY;
            if (answer != 0)
                CHECK(answer == EBUSY && pthread_rwlock_wrlock(&lock) == 0);
            CHECK(__atomic_load_n(&readers, __ATOMIC_SEQ_CST) == 0);
            uint32_t seen = one;
            CHECK(other == seen);
            one = seen + 1;
            writers++;
            other = seen + 1;
        } else {
            int answer = i % 3 == 0 ? pthread_rwlock_tryrdlock(&lock) : EBUSY;
            if (answer != 0)
                CHECK(answer == EBUSY && pthread_rwlock_rdlock(&lock) == 0);
            __atomic_fetch_add(&readers, 1, __ATOMIC_SEQ_CST);
            CHECK(one == other);
            __atomic_fetch_sub(&readers, 1, __ATOMIC_SEQ_CST);
        }
        CHECK(pthread_rwlock_unlock(&lock) == 0);
    }
    // All hold it at once.
    pthread_barrier_wait(&barrier);
    pthread_rwlock_rdlock(&lock);
    pthread_barrier_wait(&barrier);
    CHECK(pthread_rwlock_trywrlock(&lock) == EBUSY);
    pthread_barrier_wait(&barrier);
    pthread_rwlock_unlock(&lock);
    return argument;
}

int main(void)
{
    pthread_barrier_init(&barrier, NULL, HARTS);
    on_all(run);
    CHECK(one == other && pthread_rwlock_destroy(&lock) == 0);
    show("writers", writers);
    return 0;
}
