// A flag that stops all threads, beside an array of what each of them has done.
#include <pthread.h>

#define THREADS 3
#define ROUNDS 300

struct done {
    volatile unsigned rounds;
    volatile unsigned last;
};

static volatile unsigned stop;
static struct done done[THREADS];

static void *work(void *argument)
{
    struct done *own = argument;
    while (!stop) {
        own->rounds++;
        own->last = own->rounds;
    }
    return 0;
}

static void *watch(void *unused)
{
    for (volatile unsigned i = 0; i < ROUNDS; i++)
        ;
    stop = 1;
    return unused;
}

int main(void)
{
    pthread_t threads[THREADS + 1];
    for (int i = 0; i < THREADS; i++)
        if (pthread_create(&threads[i], 0, work, (void *)&done[i]) != 0)
            return 1;
    if (pthread_create(&threads[THREADS], 0, watch, 0) != 0)
        return 1;
    for (int i = 0; i <= THREADS; i++)
        pthread_join(threads[i], 0);
    return done[0].rounds ? 0 : 1;
}
