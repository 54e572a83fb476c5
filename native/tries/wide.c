/* Accesses of every width and kind, each in words of their own: what the tool should say of them stands in native/try.sh. */
#include <pthread.h>
#include <stdint.h>

static _Alignas(4096) volatile uint8_t area[4096];

static void *touch(void *none)
{
    volatile uint8_t *p = area;
    for (long i = 0; i < 1000; i++) {
        *(volatile uint64_t *)(p + 0) = i;
        __asm__ volatile("mov %1, (%0)" : : "r"(p + 13), "r"(i) : "memory"); /* not aligned: pieces of 1, 2, 4 and 1 bytes */
        (void)*(volatile uint16_t *)(p + 64); /* nothing is made of these two */
        (void)*(volatile uint16_t *)(p + 64);
        __asm__ volatile("movdqa %%xmm0, (%0)" : : "r"(p + 128) : "memory");
        __asm__ volatile("vmovdqu (%0), %%ymm1" : : "r"(p + 192) : "xmm1");
        __asm__ volatile("mov (%0), %%eax\n mov 4(%0), %%eax\n mov 8(%0), %%eax\n" : : "r"(p + 256) : "eax");
        __asm__ volatile("lock cmpxchg16b (%0)" : : "r"(p + 512), "a"(1L), "d"(0L), "b"(0L), "c"(0L) : "cc", "memory"); /* finds another value */
        __asm__ volatile("lock cmpxchg16b (%0)" : : "r"(p + 576), "a"(0L), "d"(0L), "b"(0L), "c"(0L) : "cc", "memory");
        __asm__ volatile("lock addb $1, (%0)" : : "r"(p + 640) : "cc", "memory");
        __asm__ volatile("xchg %%eax, (%0)" : : "r"(p + 704) : "eax", "memory");
        __asm__ volatile("xadd %%eax, (%0)" : : "r"(p + 768) : "eax", "cc", "memory"); /* a read and a write */
        __asm__ volatile("prefetcht0 (%0)" : : "r"(p + 832));
        __asm__ volatile("fxsave64 (%0)" : : "r"(p + 1024) : "memory");
        {
            volatile uint8_t *to = p + 2048;
            long count = 8;
            __asm__ volatile("rep stosb" : "+D"(to), "+c"(count) : "a"(0) : "memory");
        }
    }
    return none;
}

int main(void)
{
    pthread_t thread;
    pthread_create(&thread, 0, touch, 0);
    pthread_join(thread, 0);
    return 0;
}
