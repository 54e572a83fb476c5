// Attributes: those without an effect are stored, and can be read back.
#include "pthread_internal.h"

int pthread_attr_init(pthread_attr_t *attr)
{
    *attr = (pthread_attr_t){.stack = 65536};
    return 0;
}

#define SETS(function, type, field, name, value)                                                                                           \
    int function(type *attr, value name)                                                                                                   \
    {                                                                                                                                      \
        attr->field = name;                                                                                                                \
        return 0;                                                                                                                          \
    }
#define GETS(function, type, field, name, value)                                                                                           \
    int function(const type *attr, value *name)                                                                                            \
    {                                                                                                                                      \
        *name = attr->field;                                                                                                               \
        return 0;                                                                                                                          \
    }
#define CLEARS(function, type)                                                                                                             \
    int function(type *attr)                                                                                                               \
    {                                                                                                                                      \
        *attr = (type){0};                                                                                                                 \
        return 0;                                                                                                                          \
    }

CLEARS(pthread_attr_destroy, pthread_attr_t)
SETS(pthread_attr_setstacksize, pthread_attr_t, stack, size, size_t)
GETS(pthread_attr_getstacksize, pthread_attr_t, stack, size, size_t)
SETS(pthread_attr_setguardsize, pthread_attr_t, guard, size, size_t)
GETS(pthread_attr_getguardsize, pthread_attr_t, guard, size, size_t)
SETS(pthread_attr_setscope, pthread_attr_t, scope, scope, int)
GETS(pthread_attr_getscope, pthread_attr_t, scope, scope, int)
SETS(pthread_attr_setinheritsched, pthread_attr_t, inherits, inherits, int)
GETS(pthread_attr_getinheritsched, pthread_attr_t, inherits, inherits, int)
SETS(pthread_attr_setschedpolicy, pthread_attr_t, policy, policy, int)
GETS(pthread_attr_getschedpolicy, pthread_attr_t, policy, policy, int)
GETS(pthread_attr_getdetachstate, pthread_attr_t, detached, detached, int)

int pthread_attr_setdetachstate(pthread_attr_t *attr, int detached)
{
    if (detached != PTHREAD_CREATE_JOINABLE && detached != PTHREAD_CREATE_DETACHED)
        return EINVAL;
    attr->detached = detached;
    return 0;
}

int pthread_attr_setschedparam(pthread_attr_t *attr, const struct sched_param *param)
{
    attr->priority = param->sched_priority;
    return 0;
}

int pthread_attr_getschedparam(const pthread_attr_t *attr, struct sched_param *param)
{
    param->sched_priority = attr->priority;
    return 0;
}

int pthread_attr_setaffinity_np(pthread_attr_t *attr, size_t size, const cpu_set_t *set)
{
    (void)attr, (void)size, (void)set;
    return 0;
}

static int concurrency;

int pthread_setconcurrency(int level)
{
    if (level < 0)
        return EINVAL;
    concurrency = level;
    return 0;
}

int pthread_getconcurrency(void)
{
    return concurrency;
}

int pthread_setschedparam(pthread_t thread, int policy, const struct sched_param *param)
{
    (void)thread, (void)policy, (void)param;
    return 0;
}

int pthread_setname_np(pthread_t thread, const char *name)
{
    (void)thread, (void)name;
    return 0;
}

int pthread_setaffinity_np(pthread_t thread, size_t size, const cpu_set_t *set)
{
    (void)thread, (void)size, (void)set;
    return 0;
}

int pthread_getaffinity_np(pthread_t thread, size_t size, cpu_set_t *set)
{
    (void)thread;
    return set_of_harts(size, set);
}

CLEARS(pthread_mutexattr_init, pthread_mutexattr_t)
CLEARS(pthread_mutexattr_destroy, pthread_mutexattr_t)
GETS(pthread_mutexattr_gettype, pthread_mutexattr_t, kind, kind, int)
SETS(pthread_mutexattr_setpshared, pthread_mutexattr_t, shared, shared, int)
GETS(pthread_mutexattr_getpshared, pthread_mutexattr_t, shared, shared, int)

int pthread_mutexattr_settype(pthread_mutexattr_t *attr, int kind)
{
    if (kind < PTHREAD_MUTEX_NORMAL || kind > PTHREAD_MUTEX_ERRORCHECK)
        return EINVAL;
    attr->kind = kind;
    return 0;
}

CLEARS(pthread_condattr_init, pthread_condattr_t)
CLEARS(pthread_condattr_destroy, pthread_condattr_t)
SETS(pthread_condattr_setpshared, pthread_condattr_t, shared, shared, int)
GETS(pthread_condattr_getpshared, pthread_condattr_t, shared, shared, int)
CLEARS(pthread_rwlockattr_init, pthread_rwlockattr_t)
CLEARS(pthread_rwlockattr_destroy, pthread_rwlockattr_t)
SETS(pthread_rwlockattr_setpshared, pthread_rwlockattr_t, shared, shared, int)
CLEARS(pthread_barrierattr_init, pthread_barrierattr_t)
CLEARS(pthread_barrierattr_destroy, pthread_barrierattr_t)
SETS(pthread_barrierattr_setpshared, pthread_barrierattr_t, shared, shared, int)
