// One hart fills blocks with numbers and puts them into a queue; another one takes them out, adds the numbers up and frees the
// blocks. Each keeps its tally in a block of its own, of 24 bytes, and the heap lays the two on one line: they are shared falsely.
#include "predator.h"

#define BATCHES 30
#define NUMBERS 100

struct batch {
    struct batch *next;
    uint32_t numbers[NUMBERS];
};

struct tally {
    volatile uint32_t batches, numbers, sum;
    uint32_t unused[3];
};

// The lock is 0 where it is free, 1 where it is held, and 2 where it is held and another hart may wait. The number of batches that
// were put in is what the taker waits at.
ALONE static struct {
    uint32_t lock, put;
    struct batch *first, **last;
} queue;

static void take_lock(void)
{
    uint32_t seen = 0;
    if (__atomic_compare_exchange_n(&queue.lock, &seen, 1, 0, __ATOMIC_SEQ_CST, __ATOMIC_SEQ_CST))
        return;
    while (__atomic_exchange_n(&queue.lock, 2, __ATOMIC_SEQ_CST) != 0)
        predator_wait(&queue.lock, 2);
}

static void leave_lock(void)
{
    if (__atomic_exchange_n(&queue.lock, 0, __ATOMIC_SEQ_CST) == 2)
        predator_wake(&queue.lock, 1);
}

static void put(struct batch *batch)
{
    batch->next = 0;
    take_lock();
    *queue.last = batch;
    queue.last = &batch->next;
    __atomic_fetch_add(&queue.put, 1, __ATOMIC_SEQ_CST);
    leave_lock();
    predator_wake(&queue.put, 1);
}

static struct batch *take(void)
{
    for (;;) {
        uint32_t seen = __atomic_load_n(&queue.put, __ATOMIC_SEQ_CST);
        take_lock();
        struct batch *batch = queue.first;
        if (batch != 0 && (queue.first = batch->next) == 0)
            queue.last = &queue.first;
        leave_lock();
        if (batch != 0)
            return batch;
        predator_wait(&queue.put, seen);
    }
}

static void count(struct tally *tally, uint32_t number)
{
    tally->numbers += 1;
    tally->sum += number;
}

static void show(const char *what, const struct tally *tally)
{
    print(what);
    print_number(tally->numbers);
    print(" sum ");
    print_number(tally->sum);
    print("\n");
}

// Its code is the sum, or 0.
static int fill(void *own)
{
    struct tally *filled = own;
    for (int i = 0; i < BATCHES; i++) {
        struct batch *batch = predator_alloc(sizeof *batch);
        if (batch == 0)
            return 0;
        for (uint32_t j = 0; j < NUMBERS; j++) {
            batch->numbers[j] = filled->numbers;
            count(filled, batch->numbers[j]);
        }
        filled->batches += 1;
        put(batch);
    }
    show("filled ", filled);
    return (int)filled->sum;
}

static int drain(struct tally *drained)
{
    while (drained->batches < BATCHES) {
        struct batch *batch = take();
        for (int j = 0; j < NUMBERS; j++)
            count(drained, batch->numbers[j]);
        drained->batches += 1;
        if (predator_free(batch) != 0)
            return 0;
    }
    return (int)drained->sum;
}

static struct tally *make_tally(void)
{
    struct tally *tally = predator_alloc(sizeof *tally);
    if (tally == 0)
        predator_exit_group(1);
    *tally = (struct tally){0, 0, 0, {0}};
    return tally;
}

// Neither hart looks at the other one's tally, so that what they share they share falsely.
int main(void)
{
    struct tally *filled = make_tally(), *drained = make_tally();
    queue.last = &queue.first;
    int filler = predator_spawn(fill, filled);
    if (filler < 0)
        return 1;
    int sum = drain(drained);
    int filled_sum = predator_join(filler);
    show("drained ", drained);
    return sum != 0 && sum == filled_sum ? 0 : 1;
}
