/* Programs that one wouldn't wish to record: the word says which. */
#define _GNU_SOURCE
#include <ftw.h>
#include <pthread.h>
#include <stdio.h>
#include <stdlib.h>
#include <string.h>
#include <sys/stat.h>
#include <sys/wait.h>
#include <unistd.h>

static volatile long hits[2];

static void *work(void *own)
{
    for (int i = 0; i < 1000; i++)
        hits[(long)own]++;
    return 0;
}

static void share(void)
{
    pthread_t other;
    if (pthread_create(&other, 0, work, (void *)1) != 0)
        exit(9);
    work(0);
    pthread_join(other, 0);
}

static int delete_it(const char *path, const struct stat *about, int kind, struct FTW *where)
{
    return remove(path);
}

int main(int count, char **words)
{
    share();
    if (count > 1 &&
        strcmp(words[1], "folder") == 0) { /* deletes the folder that it is in, and itself */
        if (unlink("bad") != 0 || rmdir("../own") != 0)
            return 8;
        share();
        puts("gone");
    }
    if (count > 1 && strcmp(words[1], "all") == 0) { /* the same with all that lies in the folder */
        if (nftw("../own", delete_it, 9, FTW_DEPTH | FTW_PHYS) != 0)
            return 8;
        share();
        puts("gone");
    }
    while (count > 1 && strcmp(words[1], "bomb") == 0) /* for ever, and so do those that it makes */
        if (fork() < 0)
            usleep(10000);
    while (count > 1 && strcmp(words[1], "forks") == 0) { /* for ever */
        pid_t child = fork();
        if (child == 0)
            _exit(0);
        waitpid(child, 0, 0);
    }
    return 3;
}
