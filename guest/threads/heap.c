// The C library's heap: harts ask for blocks and give them to each other to free, and no block is given twice. Each block has a pattern
// that shows whose it is.
//
//> blocks 960
//> moved 96
//> aligned 192
#include <stdio.h>
#include <stdlib.h>
#include <string.h>
#include "check.h"

#define TIMES 60
#define SHELVES 16

struct block {
    size_t size;
    unsigned char mark, bytes[];
};

static struct block *_Atomic shelves[SHELVES];
static _Atomic uint32_t blocks, moved, aligned;

static struct block *make(size_t size, unsigned char mark)
{
    struct block *block = malloc(sizeof *block + size);
    CHECK(block != NULL && (uintptr_t)block % 16 == 0);
    block->size = size;
    block->mark = mark;
    memset(block->bytes, mark, size);
    blocks++;
    return block;
}

static void judge(const struct block *block)
{
    for (size_t i = 0; i < block->size; i++)
        CHECK(block->bytes[i] == block->mark);
}

static void *run(void *argument)
{
    uintptr_t number = (uintptr_t)argument;
    for (uint32_t i = 0; i < TIMES; i++) {
        struct block *mine = make((number * 31 + i * 7) % 90, (unsigned char)(number * 16 + i));
        // What lies on the shelf was another hart's, as a rule.
        struct block *other = __c11_atomic_exchange(&shelves[(number + i) % SHELVES], mine, __ATOMIC_SEQ_CST);
        if (other != NULL) {
            judge(other);
            if (i % 5 == 0) {
                size_t size = other->size;
                other = realloc(other, sizeof *other + size + 40);
                CHECK(other != NULL && other->size == size);
                judge(other);
            }
            free(other);
        }
        if (i % 5 == 0)
            moved++;
        uint32_t *cleared = calloc(i % 9 + 1, 4);
        for (uint32_t j = 0; j < i % 9 + 1; j++)
            CHECK(cleared[j] == 0);
        memset(cleared, 0xFF, (i % 9 + 1) * 4);
        blocks++;
        free(cleared);
        if (i % 5 < 2) {
            char *line = aligned_alloc(64u << i % 3, 64);
            CHECK(line != NULL && (uintptr_t)line % (64u << i % 3) == 0);
            memset(line, 1, 64);
            void *more = NULL;
            CHECK(posix_memalign(&more, 256, 8) == 0 && (uintptr_t)more % 256 == 0);
            free(more);
            free(line);
            aligned++;
        }
    }
    return argument;
}

int main(void)
{
    on_all(run);
    for (int i = 0; i < SHELVES; i++)
        if (shelves[i] != NULL) {
            judge(shelves[i]);
            free(shelves[i]);
        }
    free(NULL);
    // (kept from the compiler, which takes it that malloc has memory)
    void *volatile none = malloc(0xFFFFFFF0u);
    CHECK(none == NULL);
    none = malloc(0x2000000);
    CHECK(none == NULL);
    none = calloc(0x10000, 0x10001);
    CHECK(none == NULL);
    none = realloc(malloc(8), 0);
    CHECK(none == NULL);
    printf("blocks %u\nmoved %u\naligned %u\n", (unsigned)blocks, (unsigned)moved, (unsigned)aligned);
    return 0;
}
