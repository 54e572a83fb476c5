// Condition variables: four harts put numbers into a ring of three places and four take them out, woken by signals; then all go
// through gates that are opened by broadcasts. Each number comes out once.
//
//> sum 12720
//> gates 12
#include "check.h"

#define NUMBERS 40
#define PLACES 3
#define GATES 12

static pthread_mutex_t lock = PTHREAD_MUTEX_INITIALIZER;
static pthread_cond_t has_room = PTHREAD_COND_INITIALIZER, has_number, opened;
static uint32_t ring[PLACES], first, count, taken[HARTS / 2 * NUMBERS], sum;
static uint32_t gate, at_gate;

static void put(uint32_t number)
{
    pthread_mutex_lock(&lock);
    while (count == PLACES)
        CHECK(pthread_cond_wait(&has_room, &lock) == 0);
    ring[(first + count++) % PLACES] = number;
    pthread_cond_signal(&has_number);
    pthread_mutex_unlock(&lock);
}

static void take(void)
{
    pthread_mutex_lock(&lock);
    while (count == 0)
        CHECK(pthread_cond_wait(&has_number, &lock) == 0);
    uint32_t number = ring[first];
    first = (first + 1) % PLACES;
    count--;
    taken[number]++;
    sum += number;
    pthread_mutex_unlock(&lock);
    // (a signal needs no lock)
    pthread_cond_signal(&has_room);
}

// The last of all harts opens the gate.
static void pass(uint32_t number)
{
    pthread_mutex_lock(&lock);
    if (++at_gate == HARTS) {
        at_gate = 0;
        gate = number + 1;
        pthread_cond_broadcast(&opened);
    }
    while (gate <= number)
        pthread_cond_wait(&opened, &lock);
    CHECK(gate == number + 1);
    pthread_mutex_unlock(&lock);
}

static void *run(void *argument)
{
    uint32_t number = (uint32_t)(uintptr_t)argument;
    for (uint32_t i = 0; i < NUMBERS; i++)
        if (number % 2 == 0)
            put(number / 2 * NUMBERS + i);
        else
            take();
    for (uint32_t i = 0; i < GATES; i++)
        pass(i);
    return argument;
}

int main(void)
{
    pthread_cond_init(&has_number, NULL);
    pthread_cond_init(&opened, NULL);
    on_all(run);
    for (uint32_t i = 0; i < HARTS / 2 * NUMBERS; i++)
        CHECK(taken[i] == 1);
    show("sum", sum);
    show("gates", gate);
    return 0;
}
