// Two sums of threads in a structure on a stack whose function aligns it anew, for a block that is beside them.
#include <pthread.h>

enum { STEPS = 2000 };

struct __attribute__((aligned(64))) block {
    int kept[16];
};

struct pair {
    int first, second;
};

static void *work(void *argument) {
    volatile int *own = argument;
    for (int i = 0; i < STEPS; i++) (*own)++;
    return 0;
}

static void __attribute__((noinline)) note(struct block *block) { block->kept[0]++; }

static int __attribute__((noinline)) run(int start) {
    struct block aligned = {{start}};
    struct pair sums = {0, 0};
    pthread_t one, other;
    note(&aligned);
    pthread_create(&one, 0, work, &sums.first);
    pthread_create(&other, 0, work, &sums.second);
    pthread_join(one, 0);
    pthread_join(other, 0);
    return sums.first + sums.second + aligned.kept[0];
}

int main(int count, char **words) {
    (void)words;
    return run(count) == 1;
}
