// One structure with fields of two threads in turn, and an array with an element of each.
#include <pthread.h>
#include <stdint.h>

#define ROUNDS 700

static struct timers {
    volatile uint32_t in_ticks, out_ticks, in_late, out_late;
    volatile uint64_t last[2];
} timers;

static void *work(void *argument)
{
    uintptr_t me = (uintptr_t)argument;
    for (unsigned i = 0; i < ROUNDS; i++) {
        timers.last[me] = i;
        if (me == 0) {
            timers.in_ticks++;
            timers.in_late += i & 1;
        } else {
            timers.out_ticks++;
            timers.out_late += i & 1;
        }
    }
    return 0;
}

int main(void)
{
    pthread_t threads[2];
    for (uintptr_t i = 0; i < 2; i++)
        pthread_create(&threads[i], 0, work, (void *)i);
    for (int i = 0; i < 2; i++)
        pthread_join(threads[i], 0);
    return 0;
}
