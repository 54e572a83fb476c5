// What the C library asks of a system, and where a program with it begins and ends.
#include <errno.h>
#include <stdint.h>
#include <stdlib.h>
#include <sys/types.h>
#include <unistd.h>
#include "../predator.h"

#ifndef PREDATOR_ARGUMENTS
#define PREDATOR_ARGUMENTS
#endif

int main(int count, char **words, char **names);
void __libc_init_array(void);

#ifdef PREDATOR_EXTRAS
// What main gets, in 4 KiB of which words.py makes others in a copy of the program: how many words, where they are, a null, and their bytes.
struct room {
    int count;
    char *words[1023];
} predator_arguments __attribute__((aligned(64))) = {
    sizeof((char *[]){"program", PREDATOR_ARGUMENTS NULL}) / sizeof(char *) - 1,
    {"program", PREDATOR_ARGUMENTS NULL},
};
#endif

// Run by start.S in place of main.
_Noreturn void predator_start(void)
{
#ifdef PREDATOR_EXTRAS
    __libc_init_array();
    exit(main(predator_arguments.count, predator_arguments.words, environ));
#else
    static char *words[] = {"program", PREDATOR_ARGUMENTS NULL};
    __libc_init_array();
    exit(main(sizeof words / sizeof *words - 1, words, environ));
#endif
}

void _init(void)
{
}

void _fini(void)
{
}

_Noreturn void _exit(int code)
{
    predator_exit_group(code);
}

// With the code that a shell reports for a program that aborts.
_Noreturn void abort(void)
{
    predator_exit_group(134);
}

// There is one process.
pid_t getpid(void)
{
    return 1;
}

ssize_t write(int file, const void *bytes, size_t count)
{
    int done = predator_write(file, bytes, count);
    if (done >= 0)
        return done;
    errno = -done;
    return -1;
}
