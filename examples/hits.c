/* Two threads that count in neighbouring words: the program that README begins with. */
#include <pthread.h>

static volatile long hits[2];

static void *work(void *own)
{
    for (int i = 0; i < 10000; i++)
        hits[(long)own]++;
    return 0;
}

int main(void)
{
    pthread_t other;
    if (pthread_create(&other, 0, work, (void *)1))
        return 1;
    work(0);
    pthread_join(other, 0);
    return 0;
}
