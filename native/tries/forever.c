/* Two threads that add to neighbouring words until they are ended. */
#include <pthread.h>

static volatile unsigned counts[2];

static void *add(void *mine)
{
    volatile unsigned *count = mine;
    for (;;)
        *count = *count + 1;
    return 0;
}

int main(void)
{
    pthread_t one;
    pthread_create(&one, 0, add, (void *)&counts[0]);
    add((void *)&counts[1]);
}
