// Each barrier that the program destroys is all zeros from then on, as it was before anybody came to it, and who started a thread or was woken is
// late by 500 rounds: the linker takes these (--wrap). A thread that was still in the barrier would wait for ever.
#include <pthread.h>
#include <stdint.h>
#include <string.h>

int __real_pthread_barrier_destroy(pthread_barrier_t *barrier);
int __wrap_pthread_barrier_destroy(pthread_barrier_t *barrier);
int __real_pthread_create(pthread_t *thread, const pthread_attr_t *attr, void *(*run)(void *), void *argument);
int __wrap_pthread_create(pthread_t *thread, const pthread_attr_t *attr, void *(*run)(void *), void *argument);
int __real_predator_wait(const volatile uint32_t *word, uint32_t value);
int __wrap_predator_wait(const volatile uint32_t *word, uint32_t value);

int __wrap_pthread_barrier_destroy(pthread_barrier_t *barrier)
{
    int answer = __real_pthread_barrier_destroy(barrier);
    if (answer == 0)
        memset(barrier, 0, sizeof *barrier);
    return answer;
}

static int late(int answer)
{
    for (unsigned rounds = 500; rounds > 0; rounds--)
        __asm__ volatile("" : "+r"(rounds));
    return answer;
}

int __wrap_pthread_create(pthread_t *thread, const pthread_attr_t *attr, void *(*run)(void *), void *argument)
{
    return late(__real_pthread_create(thread, attr, run, argument));
}

int __wrap_predator_wait(const volatile uint32_t *word, uint32_t value)
{
    return late(__real_predator_wait(word, value));
}
