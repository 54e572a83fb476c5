// A deque of work: its owner puts tasks in and takes them at the bottom, and two thieves take them at the top.
#include <pthread.h>
#include <stdatomic.h>

#define ROOM 64
#define TASKS 600
#define THIEVES 2

struct deque {
    _Atomic unsigned top;
    unsigned stolen;
    _Atomic unsigned bottom;
    unsigned pushed;
    unsigned popped;
    unsigned limit;
    _Atomic unsigned closed;
    unsigned tasks[ROOM];
};

static struct deque deque = {.limit = ROOM};
static _Atomic unsigned done;

static void *steal(void *unused)
{
    unsigned own = 0;
    while (!deque.closed) {
        unsigned top = deque.top;
        if (top < deque.bottom) {
            unsigned task = *(volatile unsigned *)&deque.tasks[top % ROOM];
            if (atomic_compare_exchange_strong(&deque.top, &top, top + 1)) {
                (*(volatile unsigned *)&deque.stolen)++;
                own += task;
            }
        }
    }
    done += own;
    return unused;
}

static void *own(void *unused)
{
    unsigned sum = 0;
    for (unsigned i = 0; i < TASKS; i++) {
        while (deque.bottom - deque.top >= *(volatile unsigned *)&deque.limit)
            ;
        *(volatile unsigned *)&deque.tasks[deque.bottom % ROOM] = 1;
        deque.bottom++;
        (*(volatile unsigned *)&deque.pushed)++;
        if (i % 2 == 1) {
            unsigned top = deque.top;
            if (top < deque.bottom && atomic_compare_exchange_strong(&deque.top, &top, top + 1)) {
                (*(volatile unsigned *)&deque.popped)++;
                sum++;
            }
        }
    }
    while (deque.top < deque.bottom)
        ;
    deque.closed = 1;
    done += sum;
    return unused;
}

int main(void)
{
    pthread_t owner, thieves[THIEVES];
    if (pthread_create(&owner, 0, own, 0) != 0)
        return 1;
    for (int i = 0; i < THIEVES; i++)
        if (pthread_create(&thieves[i], 0, steal, 0) != 0)
            return 1;
    pthread_join(owner, 0);
    for (int i = 0; i < THIEVES; i++)
        pthread_join(thieves[i], 0);
    return done == TASKS ? 0 : 1;
}
