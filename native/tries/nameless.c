/* Two threads add to words side by side that lie in no object: on the first thread's stack, in a file that is mapped, in memory of `mmap`, and
   in pieces of one block. It prints where the words and the threads' own stacks are. With an argument the last thread's stack is a block. */
#include <fcntl.h>
#include <pthread.h>
#include <stdint.h>
#include <stdio.h>
#include <stdlib.h>
#include <sys/mman.h>
#include <unistd.h>

#define THREADS 2
#define PLACED __attribute__((noinline))

static volatile unsigned *file, *plain, *pieces, *words;
static void *stacks[THREADS];

static PLACED void on_stack(int me) { words[me]++; }
static PLACED void in_file(int me) { file[me]++; }
static PLACED void in_plain(int me) { plain[me]++; }
static PLACED void odd(void) { pieces[1]++; }
static PLACED void even(void) { pieces[0]++; }

static void *work(void *mine)
{
    int me = (intptr_t)mine;
    stacks[me] = __builtin_frame_address(0);
    for (int i = 0; i < 500; i++) {
        on_stack(me);
        in_file(me);
        in_plain(me);
        if (me)
            odd();
        else
            even();
    }
    return 0;
}

static void *mapped(int fd, int how)
{
    return mmap(0, 65536, PROT_READ | PROT_WRITE, how, fd, 0);
}

int main(int count, char **arguments)
{
    volatile unsigned own[32] __attribute__((aligned(64))) = {0};
    pthread_t thread[THREADS];
    pthread_attr_t attributes;
    int fd = open("data file", O_RDWR | O_CREAT, 0666);
    if (ftruncate(fd, 65536))
        return 1;
    words = own;
    file = mapped(fd, MAP_SHARED);
    plain = mapped(-1, MAP_PRIVATE | MAP_ANONYMOUS);
    pieces = aligned_alloc(64, 4096);
    for (intptr_t it = 0; it < THREADS; it++) {
        pthread_attr_init(&attributes);
        if (it == 1 && count > 1)
            pthread_attr_setstack(&attributes, aligned_alloc(4096, 65536), 65536);
        pthread_create(&thread[it], &attributes, work, (void *)it);
    }
    for (int it = 0; it < THREADS; it++)
        pthread_join(thread[it], 0);
    printf("stack %p 0\nstack %p 1\nstack %p 2\nfile %p\nplain %p\n", (void *)words, stacks[0], stacks[1], (void *)file, (void *)plain);
    return own[0] + own[1] == 1000 ? 0 : 1;
}
