// The first thread ends before the others, which join it; the run goes on, and ends with 0 once the last one has ended.
//
//> threads 34650
#include "check.h"

static pthread_t first;
static uint32_t ended;

static void *run(void *argument)
{
    uint32_t mine = 0;
    for (uint32_t i = 0; i < 100; i++)
        mine += i;
    if (argument == (void *)1) {
        void *result = NULL;
        CHECK(pthread_join(first, &result) == 0);
        CHECK(result == &first);
    }
    if (__atomic_add_fetch(&ended, 1, __ATOMIC_SEQ_CST) == HARTS - 1)
        show("threads", ended * mine);
    return argument;
}

int main(void)
{
    pthread_t thread;
    first = pthread_self();
    for (uintptr_t i = 1; i < HARTS; i++)
        CHECK(pthread_create(&thread, NULL, run, (void *)i) == 0);
    pthread_exit(&first);
}
