// Two pairs of threads, each of which hands numbers over in its own mailbox; the boxes and the counts of their threads lie side by side.
#include <pthread.h>
#include <stdatomic.h>
#include <stdint.h>

#define ROUNDS 250

static struct box {
    atomic_uint full;
    uint32_t value;
} boxes[2];
static volatile uint32_t given[2], got[2];

static void *give(void *argument)
{
    uintptr_t me = (uintptr_t)argument;
    for (unsigned i = 0; i < ROUNDS; i++) {
        while (atomic_load(&boxes[me].full))
            ;
        boxes[me].value = i;
        given[me]++;
        atomic_store(&boxes[me].full, 1);
    }
    return 0;
}

static void *get(void *argument)
{
    uintptr_t me = (uintptr_t)argument;
    for (unsigned i = 0; i < ROUNDS; i++) {
        while (!atomic_load(&boxes[me].full))
            ;
        got[me] += boxes[me].value;
        atomic_store(&boxes[me].full, 0);
    }
    return 0;
}

int main(void)
{
    pthread_t threads[4];
    for (uintptr_t i = 0; i < 4; i++)
        pthread_create(&threads[i], 0, i < 2 ? give : get, (void *)(i % 2));
    for (int i = 0; i < 4; i++)
        pthread_join(threads[i], 0);
    return 0;
}
