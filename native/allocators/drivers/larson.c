/* Larson's and Krishnan's server (ISMM 1998): each thread has a set of blocks, and again and again
   replaces one of them, drawn at random, by a block of a drawn size. Then it hands the set on to
   its successor, which frees what others have asked for. Here the next thread takes the place of a
   successor. */
#include "driver.h"

#define GENERATIONS 3
#define SLOTS       24
#define REPLACED    60

struct slot {
    char *block;
    size_t size;
};

static struct {
    _Alignas(256) struct slot slots[SLOTS];
} sets[MOST_THREADS];

static void fill(struct slot *slot, uint32_t *state)
{
    slot->size = run.size + draw(state) % run.size;
    slot->block = take(slot->size);
    write_words(slot->block, slot->size, 1);
}

static void serve(struct slot *slots, uint32_t *state)
{
    for (int it = 0; it < REPLACED; it++) {
        struct slot *slot = &slots[draw(state) % SLOTS];
        write_words(slot->block, slot->size, 1);
        give(slot->block);
        fill(slot, state);
    }
}

static void work(unsigned thread)
{
    uint32_t state = thread + 1;
    for (int it = 0; it < SLOTS; it++)
        fill(&sets[thread].slots[it], &state);
    for (unsigned generation = 0; generation < GENERATIONS; generation++) {
        await_workers();
        serve(sets[(thread + generation) % run.threads].slots, &state);
    }
    for (int it = 0; it < SLOTS; it++)
        give(sets[(thread + GENERATIONS - 1) % run.threads].slots[it].block);
}

int main(int count, char **words) { return run_driver(count, words, NULL, work); }
