// Maxim Egorushkin's AtomicQueue, a ring of atomic elements for many writers and readers.
#include <atomic_queue/atomic_queue.h>

#include "run.h"

static atomic_queue::AtomicQueue<int, 64> queue;

int main()
{
    return run_queue([](int number) { return queue.try_push(number); }, [](int &number) { return queue.try_pop(number); });
}
