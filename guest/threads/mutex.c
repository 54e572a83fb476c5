// Mutexes: what is counted under one is counted once. Each hart adds to two words that no other may see apart.
//
//> one 480
//> many 480
//> by try 480
//> deep 1440
//> careful 480
#include "check.h"
#include <errno.h>

#define TIMES 60

static pthread_mutex_t plain = PTHREAD_MUTEX_INITIALIZER;
static pthread_mutex_t many[4];
static pthread_mutex_t recursive = PTHREAD_RECURSIVE_MUTEX_INITIALIZER_NP;
static pthread_mutex_t careful;

static volatile uint32_t one, other, of_many[4], deep, careful_count, by_try;

static void *run(void *argument)
{
    uintptr_t number = (uintptr_t)argument;
    for (uint32_t i = 0; i < TIMES; i++) {
        CHECK(pthread_mutex_lock(&plain) == 0);
        uint32_t seen = one;
        CHECK(other == seen);
        one = seen + 1;
        other = seen + 1;
        CHECK(pthread_mutex_unlock(&plain) == 0);

        uint32_t which = (number + i) % 4;
        pthread_mutex_lock(&many[which]);
        of_many[which] += 1;
        pthread_mutex_unlock(&many[which]);

        int answer = pthread_mutex_trylock(&plain);
        CHECK(answer == 0 || answer == EBUSY);
        if (answer == EBUSY)
            pthread_mutex_lock(&plain);
        by_try += 1;
        pthread_mutex_unlock(&plain);

        pthread_mutex_lock(&recursive);
        CHECK(pthread_mutex_trylock(&recursive) == 0);
        pthread_mutex_lock(&recursive);
        deep += 1;
        pthread_mutex_unlock(&recursive);
        deep += 1;
        pthread_mutex_unlock(&recursive);
        deep += 1;
        CHECK(pthread_mutex_unlock(&recursive) == 0);
        if (i % 8 == 0)
            CHECK(pthread_mutex_unlock(&recursive) == EPERM);

        CHECK(pthread_mutex_unlock(&careful) == EPERM);
        CHECK(pthread_mutex_lock(&careful) == 0);
        CHECK(pthread_mutex_lock(&careful) == EDEADLK && pthread_mutex_trylock(&careful) == EBUSY);
        careful_count += 1;
        CHECK(pthread_mutex_unlock(&careful) == 0);
    }
    return argument;
}

int main(void)
{
    pthread_mutexattr_t attr;
    pthread_mutexattr_init(&attr);
    CHECK(pthread_mutexattr_settype(&attr, PTHREAD_MUTEX_ERRORCHECK) == 0);
    CHECK(pthread_mutex_init(&careful, &attr) == 0);
    for (int i = 0; i < 4; i++)
        CHECK(pthread_mutex_init(&many[i], NULL) == 0);
    on_all(run);
    CHECK(one == other);
    show("one", one);
    show("many", of_many[0] + of_many[1] + of_many[2] + of_many[3]);
    show("by try", by_try);
    show("deep", deep);
    show("careful", careful_count);
    pthread_mutex_lock(&plain);
    CHECK(pthread_mutex_destroy(&plain) == EBUSY);
    pthread_mutex_unlock(&plain);
    CHECK(pthread_mutex_destroy(&plain) == 0 && pthread_mutex_destroy(&careful) == 0);
    return 0;
}
