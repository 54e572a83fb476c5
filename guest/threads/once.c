// What is done once is done before any caller goes on, and never again.
//
//> made 12
#include "check.h"

#define CONTROLS 12

static pthread_once_t controls[CONTROLS] = {PTHREAD_ONCE_INIT};
static volatile uint32_t made[CONTROLS];
static uint32_t next;

// Each function that is done once is this one; whose turn it is says `next`, which only it changes.
static void make(void)
{
    uint32_t which = next;
    for (int i = 0; i < 40; i++)
        made[which] += 1;
    next = which + 1;
}

static void *run(void *argument)
{
    for (int i = 0; i < CONTROLS; i++) {
        CHECK(pthread_once(&controls[i], make) == 0);
        CHECK(made[i] == 40);
    }
    return argument;
}

int main(void)
{
    on_all(run);
    show("made", next);
    return 0;
}
