// Four threads that fail again and again, two by asking dlmalloc for more than there is and two by a number that is too large: each finds the
// error that is its own.
#include <errno.h>
#include <pthread.h>
#include <stdio.h>
#include <stdlib.h>

#define TIMES 100

void *dlmalloc(size_t size);

static void *ask(void *wrong)
{
    for (int i = 0; i < TIMES; i++)
        *(int *)wrong += dlmalloc((size_t)-1 / 2) != NULL || errno != ENOMEM;
    return NULL;
}

static void *read_number(void *wrong)
{
    for (int i = 0; i < TIMES; i++)
        *(int *)wrong += strtol("99999999999999999999", NULL, 10) < 0 || errno != ERANGE;
    return NULL;
}

int main(void)
{
    pthread_t threads[4];
    int wrong[4] = {0}, sum = 0;
    for (int i = 0; i < 4; i++)
        if (pthread_create(&threads[i], NULL, i % 2 == 0 ? ask : read_number, &wrong[i]) != 0)
            return 1;
    for (int i = 0; i < 4; i++)
        sum += pthread_join(threads[i], NULL) == 0 ? wrong[i] : 1000;
    printf("wrong %d\n", sum);
    return 0;
}
