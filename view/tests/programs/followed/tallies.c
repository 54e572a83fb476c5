// Each thread has its element of three arrays that lie side by side, of eight bytes each.
#include <pthread.h>
#include <stdint.h>

#define THREADS 4
#define ROUNDS 400

static volatile uint64_t found[THREADS], lost[THREADS], bytes[THREADS];

static void *work(void *argument)
{
    uintptr_t me = (uintptr_t)argument;
    for (unsigned i = 0; i < ROUNDS; i++) {
        found[me]++;
        lost[me] += i & 1;
        bytes[me] += i;
    }
    return 0;
}

int main(void)
{
    pthread_t threads[THREADS];
    for (uintptr_t i = 0; i < THREADS; i++)
        pthread_create(&threads[i], 0, work, (void *)i);
    for (int i = 0; i < THREADS; i++)
        pthread_join(threads[i], 0);
    return 0;
}
