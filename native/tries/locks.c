/* Locks for readers and writers, spin locks, semaphores, once, and waits for a time: the sums come out where they are right. */
#define _GNU_SOURCE
#include <errno.h>
#include <pthread.h>
#include <semaphore.h>
#include <stdio.h>
#include <time.h>
#include <unistd.h>

#define THREADS 4
#define ROUNDS 300

static pthread_rwlock_t rwlock = PTHREAD_RWLOCK_INITIALIZER;
static pthread_spinlock_t spin;
static pthread_once_t once = PTHREAD_ONCE_INIT;
static pthread_mutex_t lock = PTHREAD_MUTEX_INITIALIZER;
static pthread_cond_t never = PTHREAD_COND_INITIALIZER, come = PTHREAD_COND_INITIALIZER;
static sem_t filled, empty;
static int written, read_right, spun, begun, passed, late, signalled, go;

static struct timespec in_ms(long ms)
{
    struct timespec time;
    clock_gettime(CLOCK_REALTIME, &time);
    time.tv_nsec += ms * 1000000;
    time.tv_sec += time.tv_nsec / 1000000000;
    time.tv_nsec %= 1000000000;
    return time;
}

static void begin(void)
{
    usleep(1000);
    begun++;
}

static void *work(void *arg)
{
    long me = (long)arg;
    pthread_once(&once, begin);
    for (int i = 0; i < ROUNDS; i++) {
        pthread_rwlock_wrlock(&rwlock);
        written++;
        written++;
        pthread_rwlock_unlock(&rwlock);
        pthread_rwlock_rdlock(&rwlock);
        int even = written % 2 == 0;
        pthread_rwlock_unlock(&rwlock);
        pthread_spin_lock(&spin);
        spun++;
        read_right += even;
        pthread_spin_unlock(&spin);
        if (me % 2) {
            sem_wait(&empty);
            sem_post(&filled);
        } else {
            sem_wait(&filled);
            __atomic_fetch_add(&passed, 1, __ATOMIC_RELAXED);
            sem_post(&empty);
        }
    }
    struct timespec soon = in_ms(20);
    pthread_mutex_lock(&lock);
    while (pthread_cond_timedwait(&never, &lock, &soon) == 0)
        ;
    late++;
    if (late == THREADS) {
        go = 1;
        pthread_cond_broadcast(&come);
    }
    struct timespec far = in_ms(20000);
    int error = 0;
    while (!go && error == 0)
        error = pthread_cond_timedwait(&come, &lock, &far);
    signalled += error == 0;
    pthread_mutex_unlock(&lock);
    return 0;
}

int main(void)
{
    pthread_t thread[THREADS];
    struct timespec soon;
    pthread_spin_init(&spin, 0);
    sem_init(&filled, 0, 0);
    sem_init(&empty, 0, 2);
    pthread_mutex_lock(&lock);
    for (long i = 0; i < THREADS; i++)
        pthread_create(&thread[i], 0, work, (void *)i);
    soon = in_ms(5);
    int busy = pthread_mutex_trylock(&lock) == EBUSY, timed = pthread_mutex_timedlock(&lock, &soon) == ETIMEDOUT;
    pthread_mutex_unlock(&lock);
    for (int i = 0; i < THREADS; i++)
        pthread_join(thread[i], 0);
    printf("begun %d written %d right %d spun %d passed %d late %d signalled %d busy %d timed %d\n", begun, written, read_right, spun, passed,
           late, signalled, busy, timed);
    return 0;
}
