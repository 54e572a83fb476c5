// Variables of two threads, mixed on one line.
#include <pthread.h>

static volatile unsigned produced, consumed, sent, received, most_sent, most_received;

static void *produce(void *unused)
{
    for (unsigned i = 0; i < 800; i++) {
        produced++;
        sent += i;
        if (i > most_sent)
            most_sent = i;
    }
    return unused;
}

static void *consume(void *unused)
{
    for (unsigned i = 0; i < 800; i++) {
        consumed++;
        received += i;
        if (i > most_received)
            most_received = i;
    }
    return unused;
}

int main(void)
{
    pthread_t threads[2];
    pthread_create(&threads[0], 0, produce, 0);
    pthread_create(&threads[1], 0, consume, 0);
    pthread_join(threads[0], 0);
    pthread_join(threads[1], 0);
    return 0;
}
