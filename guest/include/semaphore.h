// Semaphores over the harts of predator. Who waits takes no step meanwhile.
#ifndef PREDATOR_SEMAPHORE_H
#define PREDATOR_SEMAPHORE_H

#include <predator_missing.h>
#include <stdint.h>

#ifdef __cplusplus
extern "C" {
#endif

#define SEM_VALUE_MAX 0x7FFFFFFF
#define SEM_FAILED ((sem_t *)0)

typedef struct {
    uint32_t value, waiters;
} sem_t;

// -1 where the value is above SEM_VALUE_MAX, would become so, or is 0 and wanted at once; errno is then set, where there is a C library.
int sem_init(sem_t *semaphore, int shared, unsigned value);
int sem_destroy(sem_t *semaphore);
int sem_wait(sem_t *semaphore);
int sem_trywait(sem_t *semaphore);
int sem_post(sem_t *semaphore);
int sem_getvalue(sem_t *semaphore, int *value);

// (until a time of the clock, where there is a C library)
struct timespec;
int sem_timedwait(sem_t *semaphore, const struct timespec *until);

sem_t *sem_open(const char *name, int flags, ...) PREDATOR_NO_NAME;
int sem_close(sem_t *semaphore) PREDATOR_NO_NAME;
int sem_unlink(const char *name) PREDATOR_NO_NAME;

#ifdef __cplusplus
}
#endif

#endif
