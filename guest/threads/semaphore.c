// Semaphores: no more harts are inside than it has room for, what is posted is taken once, and each post lets one go on.
//
//> inside 320
//> taken 160
#include <semaphore.h>
#include "check.h"

#define TIMES 40
#define ROOM 3

static sem_t room, items, hand[HARTS];
static uint32_t now, inside, taken;

static void *run(void *argument)
{
    uintptr_t number = (uintptr_t)argument;
    for (int i = 0; i < TIMES; i++) {
        if (i % 4 != 0 || sem_trywait(&room) != 0)
            CHECK(sem_wait(&room) == 0);
        CHECK(__atomic_add_fetch(&now, 1, __ATOMIC_SEQ_CST) <= ROOM);
        __atomic_fetch_add(&inside, 1, __ATOMIC_SEQ_CST);
        __atomic_fetch_sub(&now, 1, __ATOMIC_SEQ_CST);
        CHECK(sem_post(&room) == 0);
        // Half of the harts post, half take.
        if (number % 2 == 0) {
            sem_post(&items);
        } else {
            sem_wait(&items);
            __atomic_fetch_add(&taken, 1, __ATOMIC_SEQ_CST);
        }
        // The turn goes round: each hands it to the next one.
        sem_wait(&hand[number]);
        sem_post(&hand[(number + 1) % HARTS]);
    }
    return argument;
}

int main(void)
{
    int value;
    CHECK(sem_init(&room, 0, ROOM) == 0 && sem_init(&items, 0, 0) == 0);
    for (unsigned i = 0; i < HARTS; i++)
        CHECK(sem_init(&hand[i], 0, i == 0) == 0);
    CHECK(sem_init(&hand[0], 0, 0x80000000u) == -1);
    on_all(run);
    CHECK(sem_getvalue(&room, &value) == 0 && value == ROOM);
    CHECK(sem_getvalue(&items, &value) == 0 && value == 0 && sem_trywait(&items) == -1);
    show("inside", inside);
    show("taken", taken);
    return 0;
}
