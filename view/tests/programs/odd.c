// Kinds of types, a name as C++ mangles none, a shared stack and a trap at the end.
#include "predator.h"

#define TURNS 60

union number {
    uint32_t whole;
    uint16_t half[2];
    uint8_t bytes[4];
};

struct parts {
    union number number;
    struct {
        uint32_t low : 5, middle : 11, high : 16;
    };
    uint64_t wide;
    char text[6];
    int16_t small[2][2];
};

volatile struct parts parts __asm__("parts<script>alert(1)</script>") __attribute__((aligned(64)));
ALONE static volatile uint32_t flags[2];

static int work(void *it)
{
    volatile uint32_t *shared = it;
    for (int i = 0; i < TURNS; i++) {
        parts.high++;
        parts.wide += i;
        shared[1]++;
        flags[1] = i;
    }
    return 0;
}

int main(void)
{
    volatile uint32_t own[2] = {0, 0};
    int hart = predator_spawn(work, (void *)own);
    for (int i = 0; i < TURNS; i++) {
        parts.number.half[1]++;
        parts.small[1][0]++;
        own[0]++;
        flags[0] = i;
    }
    predator_join(hart);
    *(volatile uint32_t *)4 = 1;
    return 0;
}
