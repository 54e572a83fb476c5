// Who waits makes no steps. Seven harts wait, each in another way, while the first counts for long; with a budget that it nearly uses up
// by itself, none of the others may do so too.
//
// budget = 120000
//> counted 29999
#include "check.h"

#define LONG 30000

static pthread_mutex_t lock = PTHREAD_MUTEX_INITIALIZER, for_cond = PTHREAD_MUTEX_INITIALIZER;
static pthread_cond_t cond = PTHREAD_COND_INITIALIZER;
static pthread_rwlock_t rwlock = PTHREAD_RWLOCK_INITIALIZER;
static pthread_barrier_t barrier;
static pthread_once_t once = PTHREAD_ONCE_INIT;
static pthread_t first;
static volatile uint32_t is_open, begun, counted;

static void count(void)
{
    for (uint32_t seen; (seen = begun) < 7;)
        predator_wait(&begun, seen);
    for (uint32_t i = 0; i < LONG; i++)
        counted = i;
}

static void begin(void)
{
    __atomic_fetch_add(&begun, 1, __ATOMIC_SEQ_CST);
    predator_wake(&begun, 1);
}

static void *run(void *argument)
{
    begin();
    switch ((uintptr_t)argument) {
    case 1:
        pthread_mutex_lock(&lock);
        pthread_mutex_unlock(&lock);
        break;
    case 2:
        pthread_mutex_lock(&for_cond);
        while (!is_open)
            pthread_cond_wait(&cond, &for_cond);
        pthread_mutex_unlock(&for_cond);
        break;
    case 3:
        pthread_barrier_wait(&barrier);
        break;
    case 4:
        pthread_rwlock_rdlock(&rwlock);
        pthread_rwlock_unlock(&rwlock);
        break;
    case 5:
        pthread_rwlock_wrlock(&rwlock);
        pthread_rwlock_unlock(&rwlock);
        break;
    case 6:
        pthread_once(&once, count);
        break;
    default:
        pthread_join(first, NULL);
    }
    CHECK(counted == LONG - 1);
    return argument;
}

int main(void)
{
    pthread_t thread;
    first = pthread_self();
    pthread_barrier_init(&barrier, NULL, 2);
    pthread_mutex_lock(&lock);
    pthread_rwlock_wrlock(&rwlock);
    for (uintptr_t i = 1; i < HARTS; i++)
        CHECK(pthread_create(&thread, NULL, run, (void *)i) == 0);
    pthread_once(&once, count);
    pthread_mutex_lock(&for_cond);
    is_open = 1;
    pthread_cond_broadcast(&cond);
    pthread_mutex_unlock(&for_cond);
    pthread_mutex_unlock(&lock);
    pthread_rwlock_unlock(&rwlock);
    pthread_barrier_wait(&barrier);
    show("counted", counted);
    pthread_exit(NULL);
}
