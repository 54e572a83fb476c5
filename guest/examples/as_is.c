// A program as it is: POSIX threads, C11 atomics, malloc and printf, and nothing of predator. It is built for this machine by
// `cc -pthread as_is.c`, and as a guest by `build.sh`, and prints the same.
//
// Threads take numbers from a shared counter and sort each into the bucket of its number of steps to 1 (halved where it is even, else
// three times itself and one). Each counts its work in a slot of one array, which is where they share falsely.
#include <assert.h>
#include <pthread.h>
#include <stdatomic.h>
#include <stdio.h>
#include <stdlib.h>
#include <string.h>

#define THREADS 4
#define NUMBERS 600
#define BUCKETS 16

struct entry {
    struct entry *next;
    unsigned number, steps;
};

struct bucket {
    pthread_mutex_t lock;
    struct entry *entries;
};

struct worker {
    pthread_t thread;
    unsigned taken, steps;
};

static struct bucket *buckets;
static struct worker *workers;
static pthread_barrier_t start;
static atomic_uint next_number = 1;

static unsigned steps_of(unsigned number)
{
    unsigned steps = 0;
    for (; number != 1; steps++)
        number = number % 2 == 0 ? number / 2 : 3 * number + 1;
    return steps;
}

static void *work(void *argument)
{
    struct worker *self = argument;
    pthread_barrier_wait(&start);
    for (;;) {
        unsigned number = atomic_fetch_add(&next_number, 1);
        if (number > NUMBERS)
            return self;
        struct entry *entry = malloc(sizeof *entry);
        assert(entry != NULL);
        entry->number = number;
        entry->steps = steps_of(number);
        self->taken++;
        self->steps += entry->steps;
        struct bucket *bucket = &buckets[entry->steps % BUCKETS];
        pthread_mutex_lock(&bucket->lock);
        entry->next = bucket->entries;
        bucket->entries = entry;
        pthread_mutex_unlock(&bucket->lock);
    }
}

static int by_number(const void *one, const void *other)
{
    const struct entry *a = *(struct entry *const *)one, *b = *(struct entry *const *)other;
    return (a->number > b->number) - (a->number < b->number);
}

static void show(const struct bucket *bucket, unsigned index)
{
    static struct entry *sorted[NUMBERS];
    unsigned count = 0, longest = 0;
    for (struct entry *it = bucket->entries; it != NULL; it = it->next) {
        sorted[count++] = it;
        longest = it->steps > longest ? it->steps : longest;
    }
    if (count == 0)
        return;
    qsort(sorted, count, sizeof *sorted, by_number);
    printf("bucket %2u: %3u numbers, %4u to %4u, longest %3u steps\n", index, count, sorted[0]->number, sorted[count - 1]->number, longest);
}

int main(void)
{
    buckets = calloc(BUCKETS, sizeof *buckets);
    workers = calloc(THREADS, sizeof *workers);
    if (buckets == NULL || workers == NULL)
        return EXIT_FAILURE;
    for (int i = 0; i < BUCKETS; i++)
        pthread_mutex_init(&buckets[i].lock, NULL);
    pthread_barrier_init(&start, NULL, THREADS);
    for (int i = 0; i < THREADS; i++)
        if (pthread_create(&workers[i].thread, NULL, work, &workers[i]) != 0) {
            fprintf(stderr, "no thread %d\n", i);
            return EXIT_FAILURE;
        }
    unsigned taken = 0, steps = 0;
    for (int i = 0; i < THREADS; i++) {
        void *ended;
        pthread_join(workers[i].thread, &ended);
        taken += ((struct worker *)ended)->taken;
        steps += ((struct worker *)ended)->steps;
    }
    for (unsigned i = 0; i < BUCKETS; i++)
        show(&buckets[i], i);
    printf("%u numbers, %u steps, %.2f each\n", taken, steps, (double)steps / taken);
    for (int i = 0; i < BUCKETS; i++)
        while (buckets[i].entries != NULL) {
            struct entry *next = buckets[i].entries->next;
            free(buckets[i].entries);
            buckets[i].entries = next;
        }
    free(workers);
    free(buckets);
    return taken == NUMBERS ? EXIT_SUCCESS : EXIT_FAILURE;
}
