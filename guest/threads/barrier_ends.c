// Barriers that the serial thread destroys and sets up anew, each time: whoever hasn't left yet does so, and misses nothing.
//
//> rounds 50
#include "check.h"

#define ROUNDS 25

static pthread_barrier_t barriers[2];
static volatile uint32_t at[HARTS];
static uint32_t serial;

static void *run(void *argument)
{
    uintptr_t number = (uintptr_t)argument;
    for (uint32_t i = 1; i <= 2 * ROUNDS; i++) {
        pthread_barrier_t *barrier = &barriers[i % 2];
        at[number] = i;
        if (pthread_barrier_wait(barrier) == PTHREAD_BARRIER_SERIAL_THREAD) {
            CHECK(pthread_barrier_destroy(barrier) == 0);
            CHECK(pthread_barrier_init(barrier, NULL, HARTS) == 0);
            serial++;
        }
        for (int j = 0; j < HARTS; j++)
            CHECK(at[j] == i || at[j] == i + 1);
    }
    return argument;
}

int main(void)
{
    CHECK(pthread_barrier_init(&barriers[0], NULL, 0) != 0);
    for (int i = 0; i < 2; i++)
        CHECK(pthread_barrier_init(&barriers[i], NULL, HARTS) == 0);
    on_all(run);
    for (int i = 0; i < 2; i++)
        CHECK(pthread_barrier_destroy(&barriers[i]) == 0);
    show("rounds", serial);
    return 0;
}
