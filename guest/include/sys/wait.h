// The C library's sys/wait.h. There is no other process to wait for.
#ifndef PREDATOR_SYS_WAIT_H
#define PREDATOR_SYS_WAIT_H

#include <predator_missing.h>
#include <sys/types.h>

#ifdef __cplusplus
extern "C" {
#endif

pid_t wait(int *status) PREDATOR_NO_PROCESS;
pid_t waitpid(pid_t process, int *status, int options) PREDATOR_NO_PROCESS;

#ifdef __cplusplus
}
#endif

#include_next <sys/wait.h>

#endif
