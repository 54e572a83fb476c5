// Threads: their beginning and end, who joins them, and cleanup handlers.
#include "pthread_internal.h"

static _Thread_local struct pthread_cleanup *cleanups;

// In start.S: starts a hart that calls predator_thread with the function and its argument.
int predator_spawn_thread(void *(*run)(void *), void *argument);

// The exit of the C library, where there is one.
extern _Noreturn void exit(int code) __attribute__((weak));

pthread_t pthread_self(void)
{
    return (pthread_t)predator_hart_id() + 1;
}

int pthread_equal(pthread_t one, pthread_t other)
{
    return one == other;
}

// Frees the harts of detached threads that have ended, or are about to.
static void free_detached(void)
{
    for (int hart = 1; hart < HARTS; hart++)
        if (pthread_harts.states[hart] == GONE) {
            predator_join(hart);
            pthread_harts.states[hart] = NONE;
        }
}

#ifdef PREDATOR_EXTRAS
int predator_spawn_or_warn(void *(*run)(void *), void *argument);

#define SMALL __attribute__((minsize, noinline))

SMALL static char *put_text(char *to, const char *text)
{
    while (*text != 0)
        *to++ = *text++;
    return to;
}

SMALL static char *put_number(char *to, uint32_t number)
{
    if (number >= 10)
        to = put_number(to, number / 10);
    *to++ = (char)('0' + number % 10);
    return to;
}

// Calls predator_spawn_thread. Where no hart is free it prints the setting that helps, once a run and under the lock. Each hart is in use
// then, so the highest that was ever started is the last one. (The compiler takes it for any function, so that a thread that has a hart
// makes the same steps with it and without.)
__attribute__((weak)) SMALL int predator_spawn_or_warn(void *(*run)(void *), void *argument)
{
    char line[160], *end;
    uint32_t harts = HARTS;
    int hart = predator_spawn_thread(run, argument);
    if (hart >= 0 || pthread_harts.has_warned)
        return hart;
    pthread_harts.has_warned = 1;
    while (harts - 1 > (uint32_t)predator_hart_id() && pthread_harts.states[harts - 1] == NONE)
        harts--;
    end = put_text(line, "pthread_create: each of the ");
    end = put_number(end, harts);
    end = put_text(end, " harts is in use, so there is none for another thread");
    if (harts < HARTS) {
        end = put_text(end, ": the settings may have more, as harts = ");
        end = put_number(end, harts < HARTS / 2 ? 2 * harts : HARTS);
    }
    *end++ = '\n';
    predator_write(2, line, (size_t)(end - line));
    return hart;
}
#else
#define predator_spawn_or_warn predator_spawn_thread
#endif

int pthread_create(pthread_t *thread, const pthread_attr_t *attr, void *(*run)(void *), void *argument)
{
    lock(&pthread_harts.lock);
    int hart = predator_spawn_thread(run, argument);
    if (hart < 0) {
        free_detached();
        hart = predator_spawn_or_warn(run, argument);
    }
    if (hart > 0) {
        pthread_harts.states[hart] = attr != NULL && attr->detached ? DETACHED : RUNS;
        pthread_harts.threads++;
        *thread = (pthread_t)hart + 1;
    }
    unlock(&pthread_harts.lock);
    return hart > 0 ? 0 : EAGAIN;
}

_Noreturn void pthread_exit(void *result)
{
    while (cleanups != NULL)
        pthread_cleanup_leave(cleanups, 1);
    run_destructors();
    int hart = predator_hart_id();
    lock(&pthread_harts.lock);
    pthread_harts.states[hart] = pthread_harts.states[hart] == DETACHED ? GONE : pthread_harts.states[hart] == JOINED ? JOINED : ENDED;
    int is_last = --pthread_harts.threads == 0;
    if (hart == 0) {
        pthread_harts.main_result = result;
        atomic_store(word_of(&pthread_harts.main_ended), 1);
        predator_wake(&pthread_harts.main_ended, ALL);
    }
    unlock(&pthread_harts.lock);
    if (is_last && exit != NULL)
        exit(0);
    if (is_last)
        predator_exit_group(0);
    predator_exit(hart == 0 ? 0 : (int)(intptr_t)result);
}

// Where a thread begins, called by start.S.
_Noreturn void predator_thread(void *argument, void *(*run)(void *))
{
    pthread_exit(run(argument));
}

// Claims a thread to join or to detach: 0, or why it can't be had. It is no more claimed by another one.
static int claim(pthread_t thread, enum state next)
{
    if (thread == 0 || thread > HARTS)
        return ESRCH;
    int hart = (int)thread - 1, answer = 0;
    lock(&pthread_harts.lock);
    enum state now = pthread_harts.states[hart];
    if (now == NONE || now == GONE)
        answer = ESRCH;
    else if (now != RUNS && now != ENDED)
        answer = EINVAL;
    else
        pthread_harts.states[hart] = now == ENDED && next == DETACHED ? GONE : next;
    unlock(&pthread_harts.lock);
    return answer;
}

int pthread_join(pthread_t thread, void **result)
{
    if (thread == pthread_self())
        return EDEADLK;
    int answer = claim(thread, JOINED);
    if (answer != 0)
        return answer;
    void *got;
    if (thread == 1) {
        while (atomic_load(word_of(&pthread_harts.main_ended)) == 0)
            predator_wait(&pthread_harts.main_ended, 0);
        got = pthread_harts.main_result;
    } else {
        got = (void *)(intptr_t)predator_join((int)thread - 1);
    }
    if (result != NULL)
        *result = got;
    return 0;
}

int pthread_detach(pthread_t thread)
{
    return claim(thread, DETACHED);
}

void pthread_cleanup_enter(struct pthread_cleanup *cleanup)
{
    cleanup->before = cleanups;
    cleanups = cleanup;
}

void pthread_cleanup_leave(struct pthread_cleanup *cleanup, int runs)
{
    cleanups = cleanup->before;
    if (runs)
        cleanup->run(cleanup->argument);
}
