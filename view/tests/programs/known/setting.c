// A setting that all threads read, beside a counter that one of them writes.
#include <pthread.h>

#define READERS 3
#define ROUNDS 400

static volatile unsigned setting = 3;
static volatile unsigned counter = 1;

static void *count(void *unused)
{
    for (unsigned i = 0; i < ROUNDS; i++)
        counter++;
    return unused;
}

static void *use(void *result)
{
    unsigned sum = 0;
    for (unsigned i = 0; i < ROUNDS; i++)
        sum += setting;
    return sum == ROUNDS * setting ? 0 : result;
}

int main(void)
{
    pthread_t threads[READERS + 1];
    void *result = 0, *own;
    for (int i = 0; i <= READERS; i++)
        if (pthread_create(&threads[i], 0, i ? use : count, (void *)threads) != 0)
            return 1;
    for (int i = 0; i <= READERS; i++) {
        pthread_join(threads[i], &own);
        if (i && own)
            result = own;
    }
    return counter == ROUNDS + 1 && !result ? 0 : 1;
}
