// Threads over the calls of predator, by the parts of pthread/. They are one unit, since the compiler inlines some into others: built apart,
// they would give every program other code at other addresses.
#include "pthread/pthread_create.c"
#include "pthread/pthread_mutex.c"
#include "pthread/pthread_cond.c"
#include "pthread/pthread_rwlock.c"
#include "pthread/semaphore.c"
#include "pthread/pthread_barrier.c"
#include "pthread/pthread_once.c"
#include "pthread/pthread_spin.c"
#include "pthread/pthread_key.c"
#include "pthread/sysconf.c"
#include "pthread/pthread_attr.c"
