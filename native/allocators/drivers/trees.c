/* Trees of small nodes: each thread grows a search tree of its own, cuts it down to a half and
   grows it again, as programs with linked data do. No block changes hands, so an allocator that
   keeps the threads apart has nothing to share. */
#include "driver.h"

#define CYCLES 3
#define NODES  60

struct node {
    struct node *low, *high;
    uint32_t key;
};

static size_t node_size(void)
{
    return run.size > sizeof(struct node) ? run.size : sizeof(struct node);
}

static void insert(struct node **at, uint32_t key)
{
    while (*at != NULL)
        at = key < (*at)->key ? &(*at)->low : &(*at)->high;
    struct node *own = (struct node *)take(node_size());
    own->low = own->high = NULL;
    own->key = key;
    *at = own;
}

/* Takes the least node out. */
static void remove_least(struct node **at)
{
    while ((*at)->low != NULL)
        at = &(*at)->low;
    struct node *own = *at;
    *at = own->high;
    give(own);
}

static void work(unsigned thread)
{
    uint32_t state = 7 * thread + 1;
    struct node *root = NULL;
    int count = 0;
    for (int cycle = 0; cycle < CYCLES; cycle++) {
        for (; count < NODES; count++)
            insert(&root, draw(&state));
        for (; count > NODES / 2; count--)
            remove_least(&root);
    }
    for (; count > 0; count--)
        remove_least(&root);
}

int main(int count, char **words) { return run_driver(count, words, NULL, work); }
