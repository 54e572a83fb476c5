/* The memory of the WebAssembly module: what the compiled program asks of a C library, over the
   module's own memory, which grows as it is needed.

   The sizes of blocks go in steps, four between a power of two and the next, so that at most a
   fifth of a block is unused. A freed block waits in the list of its size. Blocks are never joined:
   a module answers one request, and its memory goes with it. */

/* (there are no headers of a C library for this machine) */
typedef __SIZE_TYPE__ size_t;
typedef __UINT64_TYPE__ uint64_t;
typedef __UINTPTR_TYPE__ uintptr_t;
#define NULL ((void *)0)

enum {
    HEADER = 16,         /* bytes before a block, which keep it aligned to 16 */
    SMALLEST = 32,       /* bytes of the smallest block, with its header */
    SIZES = 4 * 64,      /* four for each bit of a size */
    WASM_PAGE = 1 << 16, /* bytes by which the memory is counted */
};

/* What a call of the heap gives, as the proved code reads it. */
struct tried {
    uint64_t is_ok;
    void *block;
};

/* What lies before a block. `next` is that of a free one. */
struct header {
    uint64_t size;
    struct header *next;
};

extern unsigned char __heap_base;

static struct header *free_blocks[SIZES];
static unsigned char *top; /* where the memory in use ends */

void *memcpy(void *to, const void *from, size_t count) { return __builtin_memcpy(to, from, count); }

void *memmove(void *to, const void *from, size_t count)
{
    return __builtin_memmove(to, from, count);
}

void *memset(void *to, int byte, size_t count) { return __builtin_memset(to, byte, count); }

int memcmp(const void *left, const void *right, size_t count)
{
    const unsigned char *a = left, *b = right;
    for (size_t i = 0; i < count; i++)
        if (a[i] != b[i])
            return a[i] < b[i] ? -1 : 1;
    return 0;
}

int bcmp(const void *left, const void *right, size_t count) { return memcmp(left, right, count); }

/* Has the memory reach to an end, where the host lets it grow so far. */
static int reach(uint64_t end)
{
    uint64_t have = (uint64_t)__builtin_wasm_memory_size(0) * WASM_PAGE;
    if (end <= have)
        return 1;
    uint64_t least = (end - have + WASM_PAGE - 1) / WASM_PAGE;
    /* An eighth of what there is at once, where the host has that: each growing has its price. */
    uint64_t some = have / 8 / WASM_PAGE;
    if (some > least && __builtin_wasm_memory_grow(0, some) != (size_t)-1)
        return 1;
    return __builtin_wasm_memory_grow(0, least) != (size_t)-1;
}

/* The number of the step that holds a block of `bytes` with its header, whose size it gives. */
static int step_of(uint64_t bytes, uint64_t *size)
{
    uint64_t whole = bytes + HEADER < SMALLEST ? SMALLEST : bytes + HEADER;
    int bit = 63 - __builtin_clzll(whole - 1);
    uint64_t quarter = (uint64_t)1 << (bit - 2);
    *size = (whole + quarter - 1) & ~(quarter - 1);
    *size = (*size + HEADER - 1) & ~(uint64_t)(HEADER - 1);
    return 4 * bit + (int)((whole - 1) / quarter % 4);
}

static void *allocate(uint64_t bytes)
{
    uint64_t size;
    int step = step_of(bytes, &size);
    struct header *block = free_blocks[step];
    if (block) {
        free_blocks[step] = block->next;
        return block + 1;
    }
    if (!top)
        top = (unsigned char *)(((uintptr_t)&__heap_base + HEADER - 1) & ~(uintptr_t)(HEADER - 1));
    if (!reach((uint64_t)top + size))
        return NULL;
    block = (struct header *)top;
    top += size;
    block->size = size;
    return block + 1;
}

static void release(void *at)
{
    struct header *block = (struct header *)at - 1;
    uint64_t size;
    int step = step_of(block->size - HEADER, &size);
    block->next = free_blocks[step];
    free_blocks[step] = block;
}

/* The last block grows where it lies. */
static int grows_in_place(struct header *block, uint64_t bytes)
{
    uint64_t size;
    if ((unsigned char *)block + block->size != top)
        return 0;
    step_of(bytes, &size);
    if (!reach((uint64_t)block + size))
        return 0;
    top = (unsigned char *)block + size;
    block->size = size;
    return 1;
}

struct tried rattle_alloc(size_t bytes, size_t align)
{
    (void)align; /* (at most 16, as each block is) */
    void *block = allocate(bytes);
    return (struct tried){block != NULL, block};
}

struct tried rattle_realloc(void *old, size_t kept, size_t bytes, size_t align)
{
    (void)align;
    struct header *block = (struct header *)old - 1;
    if (bytes + HEADER <= block->size || grows_in_place(block, bytes))
        return (struct tried){1, old};
    void *fresh = allocate(bytes);
    if (!fresh)
        return (struct tried){0, old};
    memcpy(fresh, old, kept);
    release(old);
    return (struct tried){1, fresh};
}

void rattle_dealloc(void *block) { release(block); }

/* Room for a request or a reply, or 0. */
void *predator_room(size_t bytes) { return allocate(bytes); }
