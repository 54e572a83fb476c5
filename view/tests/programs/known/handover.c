// Two threads that hand a number to each other, with whose turn it is.
#include <pthread.h>
#include <stdatomic.h>

#define ROUNDS 200

struct handover {
    _Atomic unsigned turn;
    volatile unsigned number;
};

static struct handover handover;

static void *work(void *argument)
{
    unsigned own = (unsigned)(unsigned long)argument;
    for (unsigned i = 0; i < ROUNDS; i++) {
        while (handover.turn != own)
            ;
        handover.number++;
        handover.turn = 1 - own;
    }
    return 0;
}

int main(void)
{
    pthread_t threads[2];
    for (int i = 0; i < 2; i++)
        if (pthread_create(&threads[i], 0, work, (void *)(unsigned long)i) != 0)
            return 1;
    for (int i = 0; i < 2; i++)
        pthread_join(threads[i], 0);
    return handover.number == 2 * ROUNDS ? 0 : 1;
}
