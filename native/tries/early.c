/* A library that does what the runtime looks at before the runtime has begun: it locks, sleeps and makes a thread. */
#include <pthread.h>
#include <unistd.h>

static pthread_mutex_t lock = PTHREAD_MUTEX_INITIALIZER;
static pthread_t thread;
static int done;

static void *work(void *none)
{
    pthread_mutex_lock(&lock);
    done++;
    pthread_mutex_unlock(&lock);
    return none;
}

static void __attribute__((constructor)) first(void)
{
    pthread_mutex_lock(&lock);
    usleep(10);
    pthread_mutex_unlock(&lock);
    pthread_create(&thread, 0, work, 0);
}

int early_done(void);
int early_done(void)
{
    pthread_join(thread, 0);
    return done;
}
