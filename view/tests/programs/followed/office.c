// Each thread has a task on main's stack and puts small nodes into a list of its own. All take numbers from one counter, on whose line each
// counts its tries, and add to one sum under a mutex.
#include <pthread.h>
#include <stdatomic.h>
#include <stdint.h>
#include <stdlib.h>

#define THREADS 4

struct task {
    uint32_t number;
    volatile uint32_t steps, sum;
};
struct node {
    struct node *next;
    uint32_t key, value;
};
static atomic_uint next __attribute__((aligned(64)));
static volatile uint32_t tries[THREADS];
static pthread_mutex_t lock __attribute__((aligned(64))) = PTHREAD_MUTEX_INITIALIZER;
static volatile uint32_t total;

static void *work(void *argument)
{
    struct task *task = argument;
    struct node *first = 0;
    for (unsigned at; (at = atomic_fetch_add(&next, 1)) < 600;) {
        for (unsigned i = 0; i < 3; i++) {
            tries[task->number] += at;
            task->steps++;
            task->sum += i;
        }
        if (at % 2) {
            struct node *made = malloc(sizeof *made);
            *made = (struct node){first, at, task->number};
            first = made;
        }
        if (at % 8 == 0) {
            pthread_mutex_lock(&lock);
            total += at;
            pthread_mutex_unlock(&lock);
        }
    }
    return first;
}

int main(void)
{
    pthread_t threads[THREADS];
    struct task tasks[THREADS] = {{0}};
    for (uint32_t i = 0; i < THREADS; i++) {
        tasks[i].number = i;
        pthread_create(&threads[i], 0, work, &tasks[i]);
    }
    uint32_t sum = 0;
    for (int i = 0; i < THREADS; i++) {
        pthread_join(threads[i], 0);
        sum += tasks[i].sum;
    }
    return sum == 1;
}
