// Keys: values that each thread has for itself, with destructors.
#include "pthread_internal.h"

// A key's number of uses is odd while it is in use, so that a value that was set under an earlier use isn't seen.
ALONE static struct {
    uint32_t uses;
    void (*destructor)(void *);
} pthread_keys[PTHREAD_KEYS_MAX];
ALONE static uint32_t pthread_keys_lock;

struct value {
    uint32_t uses;
    void *value;
};

// Made by the first value that the thread sets.
static _Thread_local struct value *values;

int pthread_key_create(pthread_key_t *key, void (*destructor)(void *))
{
    unsigned free = 0;
    lock(&pthread_keys_lock);
    while (free < PTHREAD_KEYS_MAX && pthread_keys[free].uses % 2 == 1)
        free++;
    if (free < PTHREAD_KEYS_MAX) {
        pthread_keys[free].destructor = destructor;
        pthread_keys[free].uses++;
        *key = free;
    }
    unlock(&pthread_keys_lock);
    return free < PTHREAD_KEYS_MAX ? 0 : EAGAIN;
}

int pthread_key_delete(pthread_key_t key)
{
    int answer = EINVAL;
    lock(&pthread_keys_lock);
    if (key < PTHREAD_KEYS_MAX && pthread_keys[key].uses % 2 == 1) {
        pthread_keys[key].uses++;
        answer = 0;
    }
    unlock(&pthread_keys_lock);
    return answer;
}

int pthread_setspecific(pthread_key_t key, const void *value)
{
    if (key >= PTHREAD_KEYS_MAX || pthread_keys[key].uses % 2 == 0)
        return EINVAL;
    if (values == NULL) {
        if (value == NULL)
            return 0;
        values = predator_alloc(PTHREAD_KEYS_MAX * sizeof *values);
        if (values == NULL)
            return ENOMEM;
        for (int i = 0; i < PTHREAD_KEYS_MAX; i++)
            values[i] = (struct value){0, NULL};
    }
    values[key] = (struct value){pthread_keys[key].uses, (void *)value};
    return 0;
}

void *pthread_getspecific(pthread_key_t key)
{
    if (key >= PTHREAD_KEYS_MAX || values == NULL || values[key].uses != pthread_keys[key].uses)
        return NULL;
    return values[key].value;
}

// A destructor may set values again, so it is tried some times.
static void run_destructors(void)
{
    for (int tries = 0, again = values != NULL; again && tries < PTHREAD_DESTRUCTOR_ITERATIONS; tries++) {
        again = 0;
        for (pthread_key_t key = 0; key < PTHREAD_KEYS_MAX; key++) {
            void *value = pthread_getspecific(key);
            void (*destructor)(void *) = pthread_keys[key].destructor;
            if (value != NULL && pthread_keys[key].uses % 2 == 1 && destructor != NULL) {
                values[key].value = NULL;
                again = 1;
                destructor(value);
            }
        }
    }
    if (values != NULL)
        predator_free(values);
    values = NULL;
}
