// C11's threads: mutexes, condition variables, values of each thread's own and what is done once, by threads.h.
//
//> begun 1
//> sum 800
//> passed 80
//> freed 7
//> results 28
#include <threads.h>
#include "check.h"

#define ROUNDS 100
#define TURNS 10

static mtx_t lock, again;
static cnd_t changed;
static tss_t key;
static once_flag once = ONCE_FLAG_INIT;
static uint32_t begun, sum, turn, passed;
static _Atomic uint32_t freed;
static thread_local uint32_t own;

static void begin(void)
{
    begun++;
}

static void let_go(void *value)
{
    CHECK(*(uint32_t *)value == ROUNDS);
    freed++;
}

static int run(void *argument)
{
    uint32_t number = (uint32_t)(uintptr_t)argument;
    call_once(&once, begin);
    CHECK(begun == 1);
    CHECK(tss_get(key) == NULL && tss_set(key, &own) == thrd_success && tss_get(key) == &own);
    for (int i = 0; i < ROUNDS; i++) {
        CHECK(mtx_lock(&again) == thrd_success && mtx_lock(&again) == thrd_success);
        sum++;
        own++;
        CHECK(mtx_unlock(&again) == thrd_success && mtx_unlock(&again) == thrd_success);
        thrd_yield();
    }
    // Each in its turn.
    for (int i = 0; i < TURNS; i++) {
        mtx_lock(&lock);
        while (turn != number)
            cnd_wait(&changed, &lock);
        passed++;
        turn = (turn + 1) % HARTS;
        cnd_broadcast(&changed);
        mtx_unlock(&lock);
    }
    if (number % 2 == 1)
        thrd_exit((int)number);
    return (int)number;
}

int main(void)
{
    thrd_t threads[HARTS];
    int results = 0, result;
    CHECK(mtx_init(&lock, mtx_plain) == thrd_success && mtx_init(&again, mtx_plain | mtx_recursive) == thrd_success);
    CHECK(cnd_init(&changed) == thrd_success && tss_create(&key, let_go) == thrd_success);
    CHECK(mtx_trylock(&lock) == thrd_success && mtx_trylock(&lock) == thrd_busy && mtx_unlock(&lock) == thrd_success);
    for (uintptr_t i = 1; i < HARTS; i++)
        CHECK(thrd_create(&threads[i], run, (void *)i) == thrd_success);
    CHECK(thrd_equal(thrd_current(), thrd_current()) && !thrd_equal(thrd_current(), threads[1]));
    CHECK(run(NULL) == 0);
    for (uint32_t i = 1; i < HARTS; i++) {
        CHECK(thrd_join(threads[i], &result) == thrd_success && result == (int)i);
        results += result;
    }
    tss_delete(key);
    cnd_destroy(&changed);
    mtx_destroy(&lock);
    show("begun", begun);
    show("sum", sum);
    show("passed", passed);
    show("freed", freed);
    show("results", (uint32_t)results);
    return 0;
}
