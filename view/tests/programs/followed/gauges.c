// Two threads and their variables: a structure with a field of each, an array with an element of each, and a variable of each.
#include <pthread.h>
#include <stdint.h>

#define ROUNDS 800

static volatile struct {
    uint32_t left, right;
} gauge;
static volatile uint32_t level[2], rises, falls;

static void *work(void *argument)
{
    uintptr_t me = (uintptr_t)argument;
    for (unsigned i = 0; i < ROUNDS; i++) {
        level[me] = i;
        if (me) {
            gauge.right++;
            rises++;
        } else {
            gauge.left++;
            falls++;
        }
    }
    return 0;
}

int main(void)
{
    pthread_t threads[2];
    for (uintptr_t i = 0; i < 2; i++)
        pthread_create(&threads[i], 0, work, (void *)i);
    for (int i = 0; i < 2; i++)
        pthread_join(threads[i], 0);
    return 0;
}
