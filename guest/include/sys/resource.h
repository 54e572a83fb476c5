// A run's report shows what it has used, and the program can't ask: getrusage answers -1 with ENOSYS.
#ifndef PREDATOR_SYS_RESOURCE_H
#define PREDATOR_SYS_RESOURCE_H

#include <sys/time.h>

#ifdef __cplusplus
extern "C" {
#endif

#define RUSAGE_SELF 0
#define RUSAGE_CHILDREN (-1)
#define RUSAGE_THREAD 1

struct rusage {
    struct timeval ru_utime, ru_stime;
    long ru_maxrss, ru_ixrss, ru_idrss, ru_isrss, ru_minflt, ru_majflt, ru_nswap, ru_inblock, ru_oublock, ru_msgsnd, ru_msgrcv, ru_nsignals,
        ru_nvcsw, ru_nivcsw;
};

int getrusage(int whose, struct rusage *used);

#ifdef __cplusplus
}
#endif

#endif
