// The C library's stdlib.h, without other processes and files.
#ifndef PREDATOR_STDLIB_H
#define PREDATOR_STDLIB_H

#include <predator_missing.h>

#ifdef __cplusplus
extern "C" {
#endif

int system(const char *command) PREDATOR_NO_PROCESS;
int mkstemp(char *path) PREDATOR_NO_FILE;

#ifdef __cplusplus
}
#endif

#include_next <stdlib.h>

#endif
