/* Threads that take turns by a lock that isn't compiled with the second way, each with more accesses than a turn has. */
#include <pthread.h>
#include <stdio.h>

static volatile unsigned sums[2];

#ifdef QUEUE
/* The lock of Mellor-Crummey and Scott: each waits at a word of its own. */
static struct place {
    struct place *volatile next;
    volatile unsigned waits;
} places[2], *last;

#ifdef __x86_64__
static inline void spin(volatile unsigned *word)
{
    __asm__ volatile("1: cmpl $0, %0; je 2f; pause; jmp 1b; 2:" : : "m"(*word) : "memory", "cc");
}
#else
static inline __attribute__((no_sanitize_thread)) void spin(volatile unsigned *word)
{
    while (*word)
        ;
}
#endif
static __attribute__((no_sanitize_thread)) void take(int me)
{
    struct place *own = &places[me], *before;
    own->next = 0;
    own->waits = 1;
    before = __atomic_exchange_n(&last, own, __ATOMIC_ACQ_REL);
    if (before) {
        before->next = own;
        spin(&own->waits);
    }
}
static __attribute__((no_sanitize_thread)) void leave(int me)
{
    struct place *own = &places[me], *it = own;
    if (!own->next && __atomic_compare_exchange_n(&last, &it, 0, 0, __ATOMIC_ACQ_REL, __ATOMIC_RELAXED))
        return;
    while (!own->next)
        ;
    own->next->waits = 0;
}
#else
static unsigned lock;

#ifdef __x86_64__
static void take(int me)
{
    __asm__ volatile("1: lock btsl $0, %0; jnc 2f; pause; jmp 1b; 2:" : "+m"(lock) : : "memory", "cc");
}
static void leave(int me) { __asm__ volatile("movl $0, %0" : "=m"(lock) : : "memory"); }
#else
static __attribute__((no_sanitize_thread)) void take(int me)
{
    while (__atomic_exchange_n(&lock, 1, __ATOMIC_ACQUIRE))
        ;
}
static __attribute__((no_sanitize_thread)) void leave(int me) { __atomic_store_n(&lock, 0, __ATOMIC_RELEASE); }
#endif
#endif

static void *add(void *mine)
{
    volatile unsigned *sum = mine;
    for (int turn = 0; turn < 50; turn++) {
        take(sum - sums);
        for (int i = 0; i < 100; i++)
            *sum = *sum + 1;
        leave(sum - sums);
    }
    return 0;
}

int main(void)
{
    pthread_t one, two;
    pthread_create(&one, 0, add, (void *)&sums[0]);
    pthread_create(&two, 0, add, (void *)&sums[1]);
    pthread_join(one, 0);
    pthread_join(two, 0);
    printf("sums %u %u\n", sums[0], sums[1]);
    return 0;
}
