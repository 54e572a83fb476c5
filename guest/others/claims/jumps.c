// Each thread of the program begins where nothing can be executed, in a block of the heap or, with STACK, in an array of the stack: the linker
// takes this function (--wrap).
#include <pthread.h>
#include <stdint.h>
#include <stdlib.h>

int __real_pthread_create(pthread_t *thread, const pthread_attr_t *attr, void *(*run)(void *), void *argument);
int __wrap_pthread_create(pthread_t *thread, const pthread_attr_t *attr, void *(*run)(void *), void *argument);

int __wrap_pthread_create(pthread_t *thread, const pthread_attr_t *attr, void *(*run)(void *), void *argument)
{
#ifdef STACK
    static uint32_t *volatile place;
    uint32_t code[4];
    place = code;
#else
    uint32_t *place = malloc(4 * sizeof *place);
#endif
    // (a nop each)
    for (int i = 0; i < 4; i++)
        place[i] = 0x13;
    (void)run;
    return __real_pthread_create(thread, attr, (void *(*)(void *))place, argument);
}
