// One lock for those who lock a stream themselves. What prints takes none, so each of its calls alone is in one piece without it.
#include <pthread.h>
#include <stdio.h>
#include "../predator.h"

ALONE static pthread_mutex_t streams = PTHREAD_RECURSIVE_MUTEX_INITIALIZER_NP;

void flockfile(FILE *stream)
{
    (void)stream;
    pthread_mutex_lock(&streams);
}

int ftrylockfile(FILE *stream)
{
    (void)stream;
    return pthread_mutex_trylock(&streams);
}

void funlockfile(FILE *stream)
{
    (void)stream;
    pthread_mutex_unlock(&streams);
}
