// Data of each thread's own: values of one thread aren't seen by another, destructors run where it ends, and a key that is made anew has
// no value. Variables that are thread_local are each thread's own too.
//
//> destroyed 140
//> tried again 21
//> keys 128
#include "check.h"
#include <errno.h>

#define TIMES 20

static pthread_key_t plain, counted, again;
static uint32_t destroyed, tried_again;
static _Thread_local uint32_t own = 7, own_zero;
static _Thread_local char own_text[5] = "own";

static void destroy(void *value)
{
    __atomic_fetch_add(&destroyed, (uint32_t)(uintptr_t)value, __ATOMIC_SEQ_CST);
}

// Sets its value again, but for the last time.
static void destroy_again(void *value)
{
    __atomic_fetch_add(&tried_again, 1, __ATOMIC_SEQ_CST);
    if ((uintptr_t)value > 1)
        CHECK(pthread_setspecific(again, (void *)((uintptr_t)value - 1)) == 0);
}

static void *run(void *argument)
{
    uintptr_t number = (uintptr_t)argument;
    CHECK(own == 7 && own_zero == 0 && own_text[0] == 'o' && own_text[4] == 0);
    CHECK(pthread_getspecific(plain) == NULL);
    for (uintptr_t i = 0; i < TIMES; i++) {
        CHECK(pthread_setspecific(plain, (void *)(number * 100 + i)) == 0);
        CHECK(pthread_setspecific(counted, (void *)(i + 1)) == 0);
        own += (uint32_t)number;
        own_zero++;
        CHECK(pthread_getspecific(plain) == (void *)(number * 100 + i));
    }
    CHECK(own == 7 + number * TIMES && own_zero == TIMES);
    CHECK(pthread_setspecific(again, (void *)3) == 0);
    return argument;
}

int main(void)
{
    CHECK(pthread_key_create(&plain, NULL) == 0);
    CHECK(pthread_key_create(&counted, destroy) == 0);
    CHECK(pthread_key_create(&again, destroy_again) == 0);
    on_all(run);
    // The main thread hasn't ended.
    show("destroyed", destroyed);
    show("tried again", tried_again);
    pthread_key_t other;
    CHECK(pthread_key_delete(plain) == 0 && pthread_key_delete(plain) == EINVAL);
    CHECK(pthread_setspecific(plain, (void *)1) == EINVAL && pthread_getspecific(plain) == NULL);
    CHECK(pthread_key_create(&other, NULL) == 0 && pthread_getspecific(other) == NULL);
    pthread_key_t more[PTHREAD_KEYS_MAX];
    int count = 0;
    while (pthread_key_create(&more[count], NULL) == 0)
        count++;
    show("keys", (uint32_t)count + 3);
    return 0;
}
