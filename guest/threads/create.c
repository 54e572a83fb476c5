// Threads: each harts' threads one after another, their results, and what is refused.
//
//> pthread_create: each of the 8 harts is in use, so there is none for another thread: the settings may have more, as harts = 16
//> ran 40
//> detached 30
#include "check.h"
#include <errno.h>
#include <sched.h>
#include <unistd.h>

static uint32_t ran, detached_ran;
static pthread_t selves[HARTS];

static _Noreturn void leave(void *result)
{
    pthread_exit(result);
}

static void *run(void *argument)
{
    uintptr_t number = (uintptr_t)argument;
    selves[number] = pthread_self();
    CHECK(pthread_equal(pthread_self(), selves[number]));
    CHECK((uintptr_t)sched_getcpu() + 1 == pthread_self());
    sched_yield();
    __atomic_fetch_add(&ran, 1, __ATOMIC_SEQ_CST);
    if (number % 2 == 1)
        leave(argument);
    return argument;
}

// A result that looks like an error of join's is a result.
static void *run_minus(void *argument)
{
    return (void *)-(intptr_t)argument;
}

static void *run_detached(void *argument)
{
    if (argument != NULL)
        CHECK(pthread_detach(pthread_self()) == 0);
    __atomic_fetch_add(&detached_ran, 1, __ATOMIC_SEQ_CST);
    predator_wake(&detached_ran, 1);
    return NULL;
}

static uint32_t gate;

static void *stand(void *argument)
{
    while (__atomic_load_n(&gate, __ATOMIC_SEQ_CST) == 0)
        predator_wait(&gate, 0);
    return argument;
}

// A thread that itself makes a thread and joins it.
static void *make(void *argument)
{
    pthread_t thread;
    void *result;
    CHECK(pthread_create(&thread, NULL, run_minus, argument) == 0);
    CHECK(pthread_join(thread, &result) == 0);
    return result;
}

int main(void)
{
    cpu_set_t set;
    CHECK(sysconf(_SC_NPROCESSORS_ONLN) == HARTS && sysconf(_SC_NPROCESSORS_CONF) == HARTS);
    CHECK(sched_getaffinity(0, sizeof set, &set) == 0 && CPU_COUNT(&set) == HARTS && CPU_ISSET(HARTS - 1, &set) && !CPU_ISSET(HARTS, &set));
    CHECK(pthread_setconcurrency(3) == 0 && pthread_setconcurrency(-1) == EINVAL && pthread_getconcurrency() == 3);
    for (int i = 0; i < 5; i++)
        on_all(run);
    for (int i = 0; i < HARTS; i++)
        for (int j = 0; j < i; j++)
            CHECK(!pthread_equal(selves[i], selves[j]));

    pthread_t threads[HARTS], one_more;
    for (uintptr_t i = 1; i < HARTS; i++)
        CHECK(pthread_create(&threads[i], NULL, stand, (void *)i) == 0);
    CHECK(pthread_create(&one_more, NULL, stand, NULL) == EAGAIN);
    CHECK(sysconf(_SC_NPROCESSORS_ONLN) == HARTS);
    gate = 1;
    predator_wake(&gate, HARTS);
    for (uintptr_t i = 1; i < HARTS; i++)
        CHECK(pthread_join(threads[i], NULL) == 0);
    CHECK(pthread_join(threads[1], NULL) != 0);
    CHECK(pthread_join(pthread_self(), NULL) == EDEADLK);
    CHECK(pthread_join(0, NULL) == ESRCH && pthread_join(1000, NULL) == ESRCH);

    for (uintptr_t i = 0; i < 40; i++) {
        void *result;
        CHECK(pthread_create(&one_more, NULL, run_minus, (void *)i) == 0);
        CHECK(pthread_join(one_more, &result) == 0 && result == (void *)-(intptr_t)i);
    }
    for (uintptr_t i = 1; i < 4; i++)
        CHECK(pthread_create(&threads[i], NULL, make, (void *)i) == 0);
    for (uintptr_t i = 1; i < 4; i++) {
        void *result;
        CHECK(pthread_join(threads[i], &result) == 0 && result == (void *)-(intptr_t)i);
    }

    // Detached ones, half by themselves: their harts come free, so that there are many more of them than harts.
    pthread_attr_t attr;
    pthread_attr_init(&attr);
    CHECK(pthread_attr_setdetachstate(&attr, PTHREAD_CREATE_DETACHED) == 0);
    for (uint32_t i = 0; i < 30; i++) {
        uint32_t seen;
        while (pthread_create(&one_more, i % 2 == 0 ? &attr : NULL, run_detached, (void *)(uintptr_t)(i % 2)) != 0)
            sched_yield();
        while ((seen = __atomic_load_n(&detached_ran, __ATOMIC_SEQ_CST)) + HARTS / 2 < i)
            predator_wait(&detached_ran, seen);
    }
    for (uint32_t seen; (seen = __atomic_load_n(&detached_ran, __ATOMIC_SEQ_CST)) < 30;)
        predator_wait(&detached_ran, seen);
    show("ran", ran);
    show("detached", detached_ran);
    return 0;
}
