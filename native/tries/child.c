/* Programs whose child has the threads: child MODE [PROGRAM]. The program itself has one thread, in `both` two of its own before, and in `thread`
   two beside while it forks. */
#include <pthread.h>
#include <signal.h>
#include <stdint.h>
#include <stdio.h>
#include <stdlib.h>
#include <string.h>
#include <sys/wait.h>
#include <unistd.h>

#ifdef MARKS
#include "../tool/requests.h"
#else
#define PREDATOR_START (void)0
#define PREDATOR_STOP (void)0
#endif

static volatile uint32_t own[16] __attribute__((aligned(128))), of_child[16] __attribute__((aligned(128)));
static volatile int is_endless, caught;

static void *add(void *word)
{
    volatile uint32_t *count = word;
    for (int i = 0; is_endless || i < 20000; i++)
        *count = *count + 1;
    return 0;
}

static void two_threads(volatile uint32_t *words)
{
    pthread_t one, two;
    pthread_create(&one, 0, add, (void *)&words[0]);
    pthread_create(&two, 0, add, (void *)&words[1]);
    pthread_join(one, 0);
    pthread_join(two, 0);
}

static void on_signal(int number) { caught = number; }

static int child(const char *mode, char **program)
{
    if (!strcmp(mode, "exec")) {
        execv(program[0], program);
        return 5;
    }
    if (!strcmp(mode, "daemon")) { /* the child's child */
        setsid();
        if (fork())
            return 0;
    }
    if (!strcmp(mode, "signal")) {
        signal(SIGUSR1, on_signal);
        kill(getppid(), SIGUSR1);
    }
    PREDATOR_START;
    two_threads(of_child);
    PREDATOR_STOP;
    for (int i = 0; !strcmp(mode, "signal") && !caught && i < 10000; i++)
        usleep(1000);
    if (!strcmp(mode, "kill"))
        raise(SIGKILL);
    return 3 + caught;
}

static char **words;
static int status_of_child;

/* Makes the child and waits for it, in the first thread or in `thread` in another. */
static void *make_child(void *mode)
{
    int status = 0;
    pid_t pid = fork();
    if (pid == 0)
        exit(child(mode, words));
    if (!strcmp(mode, "orphan"))
        exit(4);
    if (!strcmp(mode, "signal")) {
        while (!caught)
            usleep(1000);
        kill(pid, SIGUSR1);
    }
    waitpid(pid, &status, 0);
    status_of_child = WIFSIGNALED(status) ? -WTERMSIG(status) : WEXITSTATUS(status);
    return 0;
}

static void *sleeps(void *none)
{
    for (;;)
        pause();
    return none;
}

int main(int argc, char **argv)
{
    char *mode = argc > 1 ? argv[1] : "";
    pthread_t one, two;
    words = argv + 2;
    is_endless = !strcmp(mode, "endless") || !strcmp(mode, "orphan");
    if (!strcmp(mode, "both"))
        two_threads(own);
    if (!strcmp(mode, "signal"))
        signal(SIGUSR1, on_signal);
    for (int i = 0; i < (!strcmp(mode, "several") ? 3 : 1) && strcmp(mode, "thread"); i++)
        make_child(mode);
    if (!strcmp(mode, "thread")) {
        pthread_create(&one, 0, sleeps, 0);
        pthread_create(&two, 0, make_child, mode);
        pthread_join(two, 0);
    }
    printf("child %d\n", status_of_child);
    return 4;
}
