// A table whose buckets are guarded by striped mutexes.
#include <pthread.h>

#define THREADS 4
#define STRIPES 8
#define BUCKETS 16
#define ROUNDS 120

struct bucket {
    volatile unsigned keys;
    volatile unsigned sum;
    unsigned room[14];
};

static struct bucket table[BUCKETS] __attribute__((aligned(64)));
#ifdef REPAIRED
struct __attribute__((aligned(64))) own_line {
    pthread_mutex_t value;
};
static struct own_line locks[STRIPES];
#define LOCK(i) (&locks[i].value)
#else
static pthread_mutex_t locks[STRIPES];
#define LOCK(i) (&locks[i])
#endif

static void *work(void *argument)
{
    unsigned at = (unsigned)(unsigned long)argument;
    for (unsigned i = 0; i < ROUNDS; i++) {
        unsigned bucket = (at * 2 + (i % 16 == 0 ? i : i % 2)) % BUCKETS;
        pthread_mutex_lock(LOCK(bucket % STRIPES));
        table[bucket].keys++;
        table[bucket].sum += i;
        pthread_mutex_unlock(LOCK(bucket % STRIPES));
    }
    return 0;
}

int main(void)
{
    pthread_t threads[THREADS];
    unsigned sum = 0;
    for (int i = 0; i < STRIPES; i++)
        pthread_mutex_init(LOCK(i), 0);
    for (int i = 0; i < THREADS; i++)
        if (pthread_create(&threads[i], 0, work, (void *)(unsigned long)i) != 0)
            return 1;
    for (int i = 0; i < THREADS; i++)
        pthread_join(threads[i], 0);
    for (int i = 0; i < BUCKETS; i++)
        sum += table[i].keys;
    return sum == THREADS * ROUNDS ? 0 : 1;
}
