// A slab whose pieces go to all threads in turn, and a free list for each thread, side by side.
#include <pthread.h>

#define THREADS 4
#define PIECES 8
#define SIZE 24
#define ROUNDS 200

struct piece {
    struct piece *volatile next;
    volatile unsigned uses;
    volatile unsigned sum;
};

struct list {
    struct piece *volatile first;
    volatile unsigned taken;
};

#ifdef REPAIRED
#define LINE __attribute__((aligned(64)))
struct LINE own_list {
    struct list value;
};
static struct own_list lists[THREADS];
#define LIST(i) (&lists[i].value)
// An arena for each thread, whose start and size are multiples of 64.
#define ARENA ((PIECES * SIZE + 63) / 64 * 64)
static unsigned char slab[THREADS * ARENA] LINE;
#define PIECE(thread, i) (slab + (thread) * ARENA + (i) * SIZE)
#else
static struct list lists[THREADS];
#define LIST(i) (&lists[i])
static unsigned char slab[THREADS * PIECES * SIZE] __attribute__((aligned(8)));
#define PIECE(thread, i) (slab + ((i) * THREADS + (thread)) * SIZE)
#endif

static void *work(void *argument)
{
    struct list *own = argument;
    for (unsigned i = 0; i < ROUNDS; i++) {
        struct piece *one = own->first, *other = one->next;
        own->first = other->next;
        own->taken += 2;
        one->uses++;
        other->uses++;
        one->sum += i;
        other->sum += i;
        other->next = own->first;
        one->next = other;
        own->first = one;
    }
    return 0;
}

int main(void)
{
    pthread_t threads[THREADS];
    unsigned sum = 0;
    for (int i = 0; i < THREADS; i++)
        for (int j = 0; j < PIECES; j++) {
            struct piece *own = (struct piece *)PIECE(i, j);
            own->next = LIST(i)->first;
            LIST(i)->first = own;
        }
    for (int i = 0; i < THREADS; i++)
        if (pthread_create(&threads[i], 0, work, LIST(i)) != 0)
            return 1;
    for (int i = 0; i < THREADS; i++) {
        pthread_join(threads[i], 0);
        sum += LIST(i)->taken;
    }
    return sum == 2 * THREADS * ROUNDS ? 0 : 1;
}
