// Harts ask an arena for small nodes, and each counts in its own: the nodes of two harts lie on one line.
#include "predator.h"

#define HARTS 4
#define TURNS 200

struct node {
    volatile uint32_t key, count;
    struct node *next;
};

static struct node *new_node(uint32_t key)
{
#ifdef REPAIRED
    struct node *made = (struct node *)(((uintptr_t)predator_alloc(64 + 64) + 63) & ~63u);
#else
    struct node *made = predator_alloc(sizeof *made);
#endif
    made->key = key;
    made->count = 0;
    made->next = 0;
    return made;
}

static int work(void *it)
{
    struct node *node = it;
    for (int i = 0; i < TURNS; i++)
        node->count += node->key;
    return 0;
}

int main(void)
{
    struct node *nodes[HARTS];
    int harts[HARTS];
    for (int i = 0; i < HARTS; i++)
        nodes[i] = new_node(i + 1);
    for (int i = 0; i < HARTS; i++)
        harts[i] = predator_spawn(work, nodes[i]);
    for (int i = 0; i < HARTS; i++)
        predator_join(harts[i]);
    return nodes[3]->count == 4 * TURNS ? 0 : 1;
}
