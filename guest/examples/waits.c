// Four harts hand a turn round. Each waits for its own, then adds to a count under a lock, and to another by one instruction.
#include "predator.h"

#define HARTS 4
#define ROUNDS 100

static volatile uint32_t turns;
static uint32_t lock;
static uint32_t count;
static uint32_t added;

// 0 is free, 1 is held, and 2 is held while others may wait.
static void take(void)
{
    uint32_t seen = 0;
    if (__atomic_compare_exchange_n(&lock, &seen, 1, 0, __ATOMIC_SEQ_CST, __ATOMIC_SEQ_CST))
        return;
    while (__atomic_exchange_n(&lock, 2, __ATOMIC_SEQ_CST) != 0)
        predator_wait(&lock, 2);
}

static void leave(void)
{
    if (__atomic_exchange_n(&lock, 0, __ATOMIC_SEQ_CST) == 2)
        predator_wake(&lock, 1);
}

static int hand_round(void *argument)
{
    uint32_t number = (uint32_t)argument;
    for (int i = 0; i < ROUNDS; i++) {
        uint32_t seen;
        while ((seen = turns) % HARTS != number)
            predator_wait(&turns, seen);
        turns = seen + 1;
        predator_wake(&turns, HARTS);
        take();
        count += 1;
        leave();
        __atomic_fetch_add(&added, 1, __ATOMIC_SEQ_CST);
    }
    return predator_hart_id();
}

int main(void)
{
    int harts[HARTS];
    for (uint32_t i = 1; i < HARTS; i++)
        harts[i] = predator_spawn(hand_round, (void *)i);
    int codes = hand_round((void *)0);
    for (int i = 1; i < HARTS; i++)
        codes += predator_join(harts[i]);
    print("turns ");
    print_number(turns);
    print(" count ");
    print_number(count);
    print(" added ");
    print_number(added);
    print(" codes ");
    print_number((uint32_t)codes);
    print("\n");
    return 0;
}
