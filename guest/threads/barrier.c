// Barriers: no hart goes on before all have come, in every round, and exactly one of them gets PTHREAD_BARRIER_SERIAL_THREAD.
//
//> rounds 25
#include "check.h"

#define ROUNDS 25

static pthread_barrier_t barrier;
static volatile uint32_t at[HARTS];
static uint32_t serial;

static void *run(void *argument)
{
    uintptr_t number = (uintptr_t)argument;
    for (uint32_t i = 1; i <= ROUNDS; i++) {
        at[number] = i;
        int answer = pthread_barrier_wait(&barrier);
        CHECK(answer == 0 || answer == PTHREAD_BARRIER_SERIAL_THREAD);
        if (answer == PTHREAD_BARRIER_SERIAL_THREAD)
            __atomic_fetch_add(&serial, 1, __ATOMIC_SEQ_CST);
        for (int j = 0; j < HARTS; j++)
            CHECK(at[j] == i);
        pthread_barrier_wait(&barrier);
        CHECK(serial == i);
        pthread_barrier_wait(&barrier);
    }
    return argument;
}

int main(void)
{
    CHECK(pthread_barrier_init(&barrier, NULL, 0) != 0);
    CHECK(pthread_barrier_init(&barrier, NULL, HARTS) == 0);
    on_all(run);
    show("rounds", serial);
    return 0;
}
