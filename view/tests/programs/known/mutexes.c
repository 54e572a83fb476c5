// An array of mutexes, one for each thread.
#include <pthread.h>

#define THREADS 4
#define ROUNDS 200

#ifdef REPAIRED
struct __attribute__((aligned(64))) own_line {
    pthread_mutex_t value;
};
static struct own_line locks[THREADS];
#define LOCK(i) (&locks[i].value)
#else
static pthread_mutex_t locks[THREADS];
#define LOCK(i) (&locks[i])
#endif

static void *work(void *argument)
{
    unsigned long at = (unsigned long)argument, sum = 0;
    for (unsigned i = 0; i < ROUNDS; i++) {
        pthread_mutex_lock(LOCK(at));
        sum += i;
        pthread_mutex_unlock(LOCK(at));
    }
    return (void *)sum;
}

int main(void)
{
    pthread_t threads[THREADS];
    void *sum;
    int status = 0;
    for (int i = 0; i < THREADS; i++)
        pthread_mutex_init(LOCK(i), 0);
    for (unsigned long i = 0; i < THREADS; i++)
        if (pthread_create(&threads[i], 0, work, (void *)i) != 0)
            return 1;
    for (int i = 0; i < THREADS; i++) {
        pthread_join(threads[i], &sum);
        status |= (unsigned long)sum != ROUNDS * (ROUNDS - 1) / 2;
    }
    return status;
}
