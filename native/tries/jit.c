/* Code that the program makes itself, in which two threads write their own words of one line. It says where the code is as a JIT does for perf;
   with a word, it doesn't. */
#include <pthread.h>
#include <stdio.h>
#include <string.h>
#include <sys/mman.h>
#include <unistd.h>

volatile long shared[8];

/* incq (%rdi); ret */
static const unsigned char code[] = {0x48, 0xff, 0x07, 0xc3};
static void (*made)(volatile long *);

static void *work(void *own)
{
    for (int i = 0; i < 1000; i++)
        made(&shared[(long)own]);
    return 0;
}

int main(int count, char **words)
{
    char path[64];
    pthread_t thread[2];
    made = mmap(0, 4096, PROT_READ | PROT_WRITE | PROT_EXEC, MAP_PRIVATE | MAP_ANONYMOUS, -1, 0);
    memcpy((void *)made, code, sizeof code);
    for (long i = 0; i < 2; i++)
        pthread_create(&thread[i], 0, work, (void *)i);
    for (int i = 0; i < 2; i++)
        pthread_join(thread[i], 0);
    snprintf(path, sizeof path, "/tmp/perf-%d.map", getpid());
    FILE *map = count > 1 ? 0 : fopen(path, "w");
    if (map) {
        fprintf(map, "%lx 10 another\n%lx %lx LazyCompile:~add /tmp/add.js:3:10\nno line\n", (long)made - 16, (long)made, sizeof code);
        fclose(map);
    }
    puts(map ? path : "no map");
    return 0;
}
