// An allocator for the tests of `predator allocators`, of this machine and of guests: a pool for each thread, with memory of its own and a
// list of free blocks for each size. A block goes back to the pool that it is of. So no line ever holds blocks of two threads.
//
// Each of the two planted defects is a line: with NEIGHBOURS all pools cut their blocks from one memory, so that neighbours go to different
// threads; with KEEPS_FOREIGN a block goes to the pool of the thread that frees it, which hands it out again beside its old neighbours.
#include <pthread.h>
#include <stddef.h>
#include <stdint.h>
#include <string.h>
#include <unistd.h>

#define POOLS   128
#define CLASSES 14
#define LEAST   16u
#define PAGES   16384u
#define FRONT   16u

struct block {
    // (in a free block the next one of its list)
    struct block *next;
    uint32_t pool, class;
};

static struct {
    _Alignas(256) pthread_mutex_t lock;
    char *now, *end;
    struct block *free[CLASSES];
} pools[POOLS];

static struct {
    _Alignas(256) pthread_mutex_t lock;
    unsigned count;
} made = {.lock = PTHREAD_MUTEX_INITIALIZER};

// (a library's variables of threads may be made by calloc, unless they are there from the first)
static _Thread_local unsigned own_pool
#ifndef __riscv
    __attribute__((tls_model("initial-exec")))
#endif
    ;

// The pool of this thread, from 1 on.
static unsigned pool_of_thread(void)
{
    if (own_pool == 0) {
        pthread_mutex_lock(&made.lock);
        own_pool = 1 + made.count++ % (POOLS - 1);
        pthread_mutex_unlock(&made.lock);
    }
    return own_pool;
}

// New memory of a pool, from the begin of a line on.
static char *cut(unsigned pool, size_t size)
{
#ifdef NEIGHBOURS
    pool = 0;
#endif
    pthread_mutex_lock(&pools[pool].lock);
    if (pools[pool].now == NULL || size > (size_t)(pools[pool].end - pools[pool].now)) {
        size_t more = (size / PAGES + 1) * PAGES;
        pthread_mutex_lock(&made.lock);
        char *pages = sbrk((intptr_t)more + 256);
        pthread_mutex_unlock(&made.lock);
        if (pages == (char *)-1) {
            pthread_mutex_unlock(&pools[pool].lock);
            return NULL;
        }
        pools[pool].now = (char *)(((uintptr_t)pages + 255) & ~(uintptr_t)255);
        pools[pool].end = pools[pool].now + more;
    }
    char *block = pools[pool].now;
    pools[pool].now += size;
    pthread_mutex_unlock(&pools[pool].lock);
    return block;
}

void *malloc(size_t size)
{
    unsigned pool = pool_of_thread(), class = 0;
    while (class < CLASSES && LEAST << class < size)
        class++;
    if (class == CLASSES)
        return NULL;
    pthread_mutex_lock(&pools[pool].lock);
    struct block *block = pools[pool].free[class];
    if (block != NULL)
        pools[pool].free[class] = block->next;
    pthread_mutex_unlock(&pools[pool].lock);
    if (block == NULL && (block = (struct block *)cut(pool, FRONT + (LEAST << class))) == NULL)
        return NULL;
    block->pool = pool;
    block->class = class;
    return (char *)block + FRONT;
}

void free(void *address)
{
    if (address == NULL)
        return;
    struct block *block = (struct block *)((char *)address - FRONT);
    unsigned pool = block->pool;
#ifdef KEEPS_FOREIGN
    pool = pool_of_thread();
#endif
    pthread_mutex_lock(&pools[pool].lock);
    block->next = pools[pool].free[block->class];
    pools[pool].free[block->class] = block;
    pthread_mutex_unlock(&pools[pool].lock);
}

void *calloc(size_t count, size_t each)
{
    char *block = malloc(count * each);
    // (with memset a compiler may make this a call of calloc)
    for (size_t it = 0; block != NULL && it < count * each; it++)
        ((volatile char *)block)[it] = 0;
    return block;
}

void *realloc(void *old, size_t size)
{
    void *block = malloc(size);
    if (old != NULL && block != NULL) {
        size_t before = LEAST << ((struct block *)((char *)old - FRONT))->class;
        memcpy(block, old, before < size ? before : size);
        free(old);
    }
    return block;
}
