// What stdatomic.h has, used by four threads at once: each operation in each size, with a result that only whole operations give. It is
// built for this machine by `cc -pthread atomics.c`, and prints the same.
#include <pthread.h>
#include <stdatomic.h>
#include <stdint.h>
#include <stdio.h>

#define THREADS 4
#define TIMES 240

static _Atomic uint8_t bytes[2];
static _Atomic uint16_t halves[2];
static _Atomic uint32_t words[4];
static _Atomic uint64_t doubles[2];
static atomic_flag flag = ATOMIC_FLAG_INIT;
static unsigned guarded;

// Each thread has a token and changes it for the one that lies here, so that none is lost.
static _Atomic uint32_t token = THREADS;
static uint32_t tokens[THREADS];

// What another thread changed between is seen by the exchange.
static void add_by_exchange(_Atomic uint32_t *word, uint32_t number)
{
    uint32_t seen = atomic_load(word);
    while (!atomic_compare_exchange_weak(word, &seen, seen + number))
        ;
}

static void *run(void *argument)
{
    uint32_t self = (uint32_t)(uintptr_t)argument;
    for (uint32_t i = 0; i < TIMES; i++) {
        atomic_fetch_add(&bytes[0], 1);
        atomic_fetch_xor(&bytes[1], (uint8_t)(1 << self));
        atomic_fetch_add_explicit(&halves[0], 3, memory_order_relaxed);
        atomic_fetch_or(&halves[1], (uint16_t)(1u << (self * 4 + i % 4)));
        atomic_fetch_add(&words[0], self);
        atomic_fetch_sub(&words[1], 1);
        add_by_exchange(&words[2], 1);
        atomic_fetch_and(&words[3], ~(1u << self));
        atomic_fetch_add(&doubles[0], 0x100000001u);
        uint64_t seen = atomic_load(&doubles[1]);
        while (!atomic_compare_exchange_strong(&doubles[1], &seen, seen + ((uint64_t)1 << 32)))
            ;
        while (atomic_flag_test_and_set_explicit(&flag, memory_order_acquire))
            ;
        guarded++;
        atomic_flag_clear_explicit(&flag, memory_order_release);
        tokens[self] = atomic_exchange(&token, tokens[self]);
    }
    return NULL;
}

int main(void)
{
    pthread_t threads[THREADS];
    atomic_init(&words[3], 0xFFu);
    for (uint32_t i = 0; i < THREADS; i++)
        tokens[i] = i;
    for (uintptr_t i = 0; i < THREADS; i++)
        if (pthread_create(&threads[i], NULL, run, (void *)i) != 0)
            return 1;
    for (int i = 0; i < THREADS; i++)
        pthread_join(threads[i], NULL);
    printf("bytes %u %u\n", atomic_load(&bytes[0]), atomic_load(&bytes[1]));
    printf("halves %u %x\n", atomic_load(&halves[0]), (unsigned)atomic_load(&halves[1]));
    printf("words %u %d %u %x\n", (unsigned)atomic_load(&words[0]), (int)atomic_load(&words[1]), (unsigned)atomic_load(&words[2]),
        (unsigned)atomic_load(&words[3]));
    printf("doubles %llx %llx\n", (unsigned long long)atomic_load(&doubles[0]), (unsigned long long)atomic_load(&doubles[1]));
    uint32_t all = 1u << atomic_load(&token);
    for (int i = 0; i < THREADS; i++)
        all |= 1u << tokens[i];
    printf("guarded %u tokens %x\n", guarded, (unsigned)all);
    return guarded == THREADS * TIMES && all == (2u << THREADS) - 1 ? 0 : 1;
}
