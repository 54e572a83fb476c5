/* Programs that end or behave in odd ways, while two threads share a line: odd MODE. */
#define _GNU_SOURCE
#include <fcntl.h>
#include <pthread.h>
#include <signal.h>
#include <stdint.h>
#include <stdio.h>
#include <stdlib.h>
#include <string.h>
#include <sys/mman.h>
#include <sys/resource.h>
#include <sys/syscall.h>
#include <sys/time.h>
#include <sys/wait.h>
#include <unistd.h>

#ifdef MARKS
#include "../tool/requests.h"
#else
#define PREDATOR_START (void)0
#define PREDATOR_STOP (void)0
#endif

static volatile uint32_t shared[16] __attribute__((aligned(128)));
static volatile int stop;

static void add(volatile uint32_t *count, long times)
{
    for (long i = 0; i < times; i++)
        *count = *count + 1;
}

static void *share(void *mine)
{
    add(mine, 20000);
    return 0;
}

static void *share_little(void *mine)
{
    add(mine, 20);
    return 0;
}

static pthread_barrier_t all;

static void *share_late(void *mine)
{
    pthread_barrier_wait(&all);
    add(mine, 20);
    return 0;
}

static void *share_on(void *mine)
{
    while (!stop)
        add(mine, 100);
    return 0;
}

static void ignored(int number) { (void)number; }
static void caught(int number) { (void)number; stop = 1; }

int main(int argc, char **argv)
{
    const char *mode = argc > 1 ? argv[1] : "";
    pthread_t one, two;
    PREDATOR_START;
    pthread_create(&one, 0, share, (void *)&shared[0]);
    pthread_create(&two, 0, share, (void *)&shared[1]);
    pthread_join(one, 0);
    pthread_join(two, 0);
    PREDATOR_STOP;
    pthread_create(&one, 0, share_on, (void *)&shared[2]);
    if (!strcmp(mode, "kill")) {
        add(&shared[3], 100000); /* enough that a piece of the trace is written */
        raise(SIGKILL);
    } else if (!strcmp(mode, "fault")) {
        *(volatile int *)8 = 1;
    } else if (!strcmp(mode, "abort")) {
        abort();
    } else if (!strcmp(mode, "catch")) { /* a handler runs, on whatever thread */
        signal(SIGUSR1, caught);
        kill(getpid(), SIGUSR1);
        while (!stop)
            ;
        pthread_join(one, 0);
        puts("caught");
    } else if (!strcmp(mode, "fork")) {
        int status;
        if (fork() == 0) {
            pthread_create(&two, 0, share, (void *)&shared[4]);
            pthread_create(&one, 0, share, (void *)&shared[5]);
            pthread_join(two, 0);
            pthread_join(one, 0);
            puts("child");
            fflush(stdout);
            _exit(0);
        }
        wait(&status);
        printf("parent %d\n", status);
    } else if (!strcmp(mode, "vfork")) { /* a child that has its parent's memory */
        int status;
        pid_t child = vfork();
        if (child == 0) {
            execl("/nowhere", "nowhere", (char *)0);
            _exit(3);
        }
        waitpid(child, &status, 0);
        printf("vfork %d\n", status >> 8);
    } else if (!strcmp(mode, "system")) {
        printf("system %d\n", system("exit 3") >> 8);
    } else if (!strcmp(mode, "childless")) { /* the launcher left it no child */
        puts(wait(0) < 0 ? "no child" : "a child");
    } else if (!strcmp(mode, "exec")) {
        execlp("echo", "echo", "another program", (char *)0);
    } else if (!strcmp(mode, "close")) {
        for (int file = 3; file < 3000; file++)
            close(file);
        syscall(SYS_close_range, 3, ~0U, 0);
        add(&shared[3], 100000);
        puts("closed");
    } else if (!strcmp(mode, "closeall")) {
        for (int file = 0; file < 3000; file++)
            close(file);
    } else if (!strcmp(mode, "large")) { /* 5 GB, a word of each page */
        size_t size = 5UL << 30;
        char *it = mmap(0, size, PROT_READ | PROT_WRITE, MAP_PRIVATE | MAP_ANONYMOUS | MAP_NORESERVE, -1, 0);
        if (it == MAP_FAILED)
            return 4;
        for (size_t at = 0; at < size; at += 1 << 20)
            it[at] = 1;
        puts("large");
    } else if (!strcmp(mode, "block")) { /* a block of 5 GB, of which a few regions are touched */
        char *it = malloc(5UL << 30);
        if (!it)
            return 4;
        for (int i = 0; i < 100; i++)
            it[(size_t)i << 24] = 1;
        free(it);
        puts("block");
    } else if (!strcmp(mode, "detached")) { /* ends while a thread runs */
        pthread_detach(one);
        exit(9);
    } else if (!strcmp(mode, "main-ends")) {
        stop = 1;
        pthread_exit(0);
    } else if (!strcmp(mode, "churn")) { /* one thread after the other */
        for (int i = 0; i < 300; i++) {
            if (pthread_create(&two, 0, share_little, (void *)&shared[4 + i % 4]))
                return 5;
            if (i % 50 == 0)
                add(&shared[3], 10);
            shared[8] = i;
            pthread_join(two, 0);
        }
        puts("churned");
    } else if (!strcmp(mode, "signals")) { /* a clock that interrupts, and the system's calls beside */
        struct itimerval each = {{0, 500}, {0, 500}};
        signal(SIGALRM, ignored);
        setitimer(ITIMER_REAL, &each, 0);
        for (int i = 0; i < 200; i++) {
            add(&shared[3], 100);
            usleep(100);
        }
    } else if (!strcmp(mode, "endless")) {
        for (;;)
            add(&shared[3], 100);
    } else if (!strcmp(mode, "many")) { /* threads that all live at a time; a thread of above is over */
        int threads = atoi(argv[2]);
        pthread_t thread[400];
        stop = 1;
        pthread_join(one, 0);
        pthread_barrier_init(&all, 0, threads);
        for (int i = 0; i < threads; i++)
            if (pthread_create(&thread[i], 0, share_late, (void *)&shared[4 + i % 4]))
                return 5;
        for (int i = 0; i < threads; i++)
            pthread_join(thread[i], 0);
        printf("many %d\n", threads);
    } else if (!strcmp(mode, "limit")) {
        struct rlimit files = {20, 20};
        setrlimit(RLIMIT_NOFILE, &files);
        add(&shared[3], 100000);
        puts("limited");
    } else if (!strcmp(mode, "input")) {
        char line[100];
        if (fgets(line, sizeof line, stdin))
            fputs(line, stdout);
        fputs("to standard error\n", stderr);
    }
    stop = 1;
    return 6;
}
