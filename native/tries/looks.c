/* Four threads make accesses of each size at random places, aligned or not, most of them near the borders of pages; it prints nothing that hangs on
   their order. */
#include <immintrin.h>
#include <pthread.h>
#include <stdint.h>
#include <stdio.h>
#include <string.h>

#define AT(type) (*(volatile type *)at)

static unsigned char area[4 * 4096] __attribute__((aligned(4096)));
static int has_avx;

__attribute__((target("avx"))) static void wide(unsigned char *at, int writes)
{
    __m256i value = {0};
    if (writes)
        __asm__ volatile("vmovdqu %1, %0" : "=m"(*(__m256i_u *)at) : "x"(value));
    else
        __asm__ volatile("vmovdqu %1, %0" : "=x"(value) : "m"(*(__m256i_u *)at));
}

static void touch(unsigned char *at, unsigned kind)
{
    __m128i value = {0};
    switch (kind % 12) {
    case 0: (void)AT(uint8_t); break;
    case 1: AT(uint8_t) = 0; break;
    case 2: (void)AT(uint16_t); break;
    case 3: AT(uint16_t) = 0; break;
    case 4: (void)AT(uint32_t); break;
    case 5: AT(uint32_t) = 0; break;
    case 6: (void)AT(uint64_t); break;
    case 7: AT(uint64_t) = 0; break;
    case 8: __asm__ volatile("movdqu %1, %0" : "=x"(value) : "m"(*(__m128i_u *)at)); break;
    case 9: __asm__ volatile("movdqu %1, %0" : "=m"(*(__m128i_u *)at) : "x"(value)); break;
    default:
        if (has_avx)
            wide(at, kind % 2);
    }
}

static void *work(void *own)
{
    uint64_t drawn = (uintptr_t)own;
    for (int i = 0; i < 2500; i++) {
        drawn = drawn * 6364136223846793005UL + 1442695040888963407UL;
        unsigned number = drawn >> 33, place = number % 4 ? 2 * 4096 - 90 + number / 4 % 170 : number / 4 % (4 * 4096 - 32);
        unsigned step = number >> 20 & 3;
        place -= step == 0 ? 0 : place % (4 * step);
        for (int again = 0; again < 3; again++)
            touch(area + place, (number >> 24) + (again == 1 && number & 1));
        if (number % 64 == 0) /* (a failed one reads, and one that works writes) */
            __sync_bool_compare_and_swap((int *)(area + place / 4 * 4), number & 64 ? 0 : 1, 0);
    }
    return 0;
}

int main(void)
{
    pthread_t thread[4];
    has_avx = __builtin_cpu_supports("avx") != 0;
    for (uintptr_t i = 0; i < 4; i++)
        pthread_create(&thread[i], 0, work, (void *)(i + 1));
    for (int i = 0; i < 4; i++)
        pthread_join(thread[i], 0);
    puts("touched");
    return 0;
}
