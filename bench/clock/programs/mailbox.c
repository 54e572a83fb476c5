// handover: two threads each hand a letter to and fro: a flag, and beside it the four words that it hands over
#include "clock.h"

struct box {
    uint32_t turn;
    struct {
        volatile uint32_t words[4];
    } OWN letter;
} APART;

ALONE static struct box boxes[THREADS / 2];

static void work(uint32_t self, uint32_t rounds)
{
    struct box *box = &boxes[self / 2];
    for (uint32_t i = 0; i < rounds; i++) {
        SPIN_WHILE(ACQUIRE(box->turn) != self % 2);
        for (int word = 0; word < 4; word++)
            box->letter.words[word] += i;
        RELEASE(box->turn, 1 - self % 2);
    }
}

static uint32_t result(void)
{
    uint32_t sum = 0;
    for (int i = 0; i < THREADS / 2; i++)
        sum += boxes[i].letter.words[0] + boxes[i].letter.words[3];
    return sum;
}

RUN(nothing, work, result, 150)
