// A struct with two arrays, of each of which every thread has an element, beside variables of single threads.
#include <pthread.h>
#include <stdint.h>

#define THREADS 4
#define ROUNDS 300

#ifdef REPAIRED
#define LINE __attribute__((aligned(64)))
#else
#define LINE
#endif
typedef volatile uint32_t own_count_t;
typedef volatile uint64_t own_sum_t;

static struct {
    uint32_t limit;
    uint64_t total;
#ifdef REPAIRED
    struct LINE counts_sums {
        own_count_t counts;
        own_sum_t sums;
    } own[THREADS];
#define COUNT(at) own[at].counts
#define SUM(at) own[at].sums
#else
    own_count_t counts[THREADS];
    own_sum_t sums[THREADS];
#define COUNT(at) counts[at]
#define SUM(at) sums[at]
#endif
} table = {.limit = 7};
static volatile unsigned first LINE;
static volatile unsigned second LINE;

static void *work(void *argument)
{
    unsigned long at = (unsigned long)argument, sum = 0;
    for (unsigned i = 0; i < ROUNDS; i++) {
        table.COUNT(at)++;
        table.SUM(at) += i;
        sum += *(volatile uint32_t *)&table.limit;
        if (at == 0)
            first++;
        if (at == 1)
            second++;
    }
    return (void *)sum;
}

int main(void)
{
    pthread_t threads[THREADS];
    int status = 0;
    for (unsigned long i = 0; i < THREADS; i++)
        if (pthread_create(&threads[i], 0, work, (void *)i) != 0)
            return 1;
    for (int i = 0; i < THREADS; i++) {
        void *sum;
        pthread_join(threads[i], &sum);
        status |= (unsigned long)sum != 7 * ROUNDS;
        table.total += table.SUM(i);
    }
    return status || table.total != THREADS * ROUNDS * (ROUNDS - 1) / 2;
}
