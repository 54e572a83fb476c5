/* What valgrind itself can't do for a program, or does otherwise than the system (native/tool/core.c): core MODE.

   It is built without `-mavx512f`: only one function has an instruction of AVX-512. */
#define _GNU_SOURCE
#include <immintrin.h>
#include <pthread.h>
#include <sched.h>
#include <stdio.h>
#include <stdlib.h>
#include <string.h>
#include <sys/mman.h>
#include <sys/resource.h>
#include <sys/syscall.h>
#include <sys/wait.h>
#include <unistd.h>

static long counts[16] __attribute__((aligned(64)));
static pthread_mutex_t lock = PTHREAD_MUTEX_INITIALIZER;

static void *add(void *own)
{
    for (int it = 0; it < 1000; it++)
        ++*(volatile long *)own;
    return 0;
}

static void threads(int many, void *(*run)(void *))
{
    pthread_t ids[many];
    for (int it = 0; it < many; it++)
        pthread_create(ids + it, 0, run, counts + it);
    for (int it = 0; it < many; it++)
        pthread_join(ids[it], 0);
}

/* Each thread has another real-time priority. */
static void *by_priority(void *own)
{
    struct sched_param priority = {.sched_priority = 1 + (int)((long *)own - counts)};
    if (pthread_setschedparam(pthread_self(), SCHED_FIFO, &priority))
        puts("no rights");
    for (int it = 0; it < 1000; it++) {
        pthread_mutex_lock(&lock);
        ++*(volatile long *)own;
        pthread_mutex_unlock(&lock);
    }
    return 0;
}

/* Code is written by one mapping, and run in another. */
static int twice(void)
{
    int file = memfd_create("code", 0), sum = 0;
    if (ftruncate(file, 4096))
        return 9;
    unsigned char *written = mmap(0, 4096, PROT_READ | PROT_WRITE, MAP_SHARED, file, 0),
                  *run = mmap(0, 4096, PROT_READ | PROT_EXEC, MAP_SHARED, file, 0);
    for (int it = 1; it <= 5; it++) {
        unsigned char code[] = {0xb8, it, 0, 0, 0, 0xc3}; /* mov $it,%eax; ret */
        memcpy(written, code, sizeof code);
        sum += ((int (*)(void))run)();
    }
    printf("sum %d\n", sum);
    return 0;
}

static void limits(void)
{
    struct rlimit limit = {256, 256};
    int result = setrlimit(RLIMIT_NOFILE, &limit);
    getrlimit(RLIMIT_NOFILE, &limit);
    printf("%d: %ld %ld\n", result, (long)limit.rlim_cur, (long)limit.rlim_max);
}

static int again(char **words, int forks)
{
    char *own[] = {words[0], "one", 0};
    int status = 0;
    if (forks && fork()) {
        wait(&status);
        threads(2, add);
        printf("child %d\n", WEXITSTATUS(status));
        return 4;
    }
    if (!forks)
        threads(2, add);
    execv("/proc/self/exe", own);
    return 9;
}

__attribute__((target("avx512f"))) static void *by_eights(void *own)
{
    __m512i all = _mm512_loadu_si512(own);
    _mm512_storeu_si512(own, _mm512_add_epi32(all, _mm512_set1_epi32(1)));
    return 0;
}

int main(int count, char **words)
{
    const char *mode = words[1];
    setvbuf(stdout, 0, _IONBF, 0);
    if (!strcmp(mode, "priorities")) {
        threads(4, by_priority);
        printf("sum %ld\n", counts[0] + counts[1] + counts[2] + counts[3]);
    } else if (!strcmp(mode, "twice")) {
        return twice();
    } else if (!strcmp(mode, "limits")) {
        limits();
    } else if (!strcmp(mode, "exec") || !strcmp(mode, "forks")) {
        return again(words, mode[0] == 'f');
    } else if (!strcmp(mode, "one")) {
        threads(2, add);
        puts("one");
        return 6;
    } else if (!strcmp(mode, "words")) {
        printf("%s %s\n", words[0], getenv("GLIBC_TUNABLES") ?: "-");
    } else if (!strcmp(mode, "eights")) {
        threads(2, by_eights);
    } else if (!strcmp(mode, "large")) {
        void *all = mmap(0, 100UL << 30, PROT_READ, MAP_PRIVATE | MAP_ANONYMOUS | MAP_NORESERVE, -1, 0);
        puts(all == MAP_FAILED ? "refused" : "mapped");
    } else if (!strcmp(mode, "calls")) { /* that valgrind doesn't know */
        for (int it = 0; it < 3; it++)
            printf("%ld\n", syscall(430, "ext4", 0)); /* fsopen */
    }
    return 3;
}
