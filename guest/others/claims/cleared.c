// The first memory that the program asks for by mmap or by sbrk, for which the linker takes these (--wrap): every other word of it is set, and it is
// given back and asked for again, between a write of `call_begins` and one of `call_ends`. Is it cleared then?
#include <stdio.h>
#include <sys/mman.h>
#include <unistd.h>

void *__real_mmap(void *wish, size_t length, int protection, int flags, int file, off_t offset);
void *__wrap_mmap(void *wish, size_t length, int protection, int flags, int file, off_t offset);
void *__real_sbrk(ptrdiff_t more);
void *__wrap_sbrk(ptrdiff_t more);

volatile unsigned call_begins, call_ends;

static unsigned *first;
static size_t words, left;

static void set(unsigned *from, size_t size)
{
    first = from;
    words = size / sizeof *first;
    for (size_t i = 1; i < words; i += 2)
        first[i] = 0x5A5A5A5A;
}

static void look(unsigned *from)
{
    left += from != first;
    for (size_t i = 0; i < words; i++)
        left += first[i] != 0;
}

#ifdef MMAP
void *__wrap_mmap(void *wish, size_t length, int protection, int flags, int file, off_t offset)
{
    void *block = __real_mmap(wish, length, protection, flags, file, offset);
    if (first != NULL || block == MAP_FAILED)
        return block;
    set(block, length);
    munmap(block, length);
    call_begins = 1;
    block = __real_mmap(wish, length, protection, flags, file, offset);
    call_ends = 1;
    look(block);
    return block;
}
#else
void *__wrap_sbrk(ptrdiff_t more)
{
    void *block = __real_sbrk(more);
    if (first != NULL || more <= 0 || block == (void *)-1)
        return block;
    set(block, (size_t)more);
    __real_sbrk(-more);
    call_begins = 1;
    block = __real_sbrk(more);
    call_ends = 1;
    look(block);
    return block;
}
#endif

__attribute__((destructor)) static void print_end(void)
{
    printf("cleared: 0x%lx of %lu words, %lu left\n", (unsigned long)first, (unsigned long)words, (unsigned long)left);
}
