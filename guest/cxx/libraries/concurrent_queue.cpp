// moodycamel's ConcurrentQueue: two threads put numbers in, two take them out.
#include <concurrentqueue/concurrentqueue.h>

#include "run.h"

static moodycamel::ConcurrentQueue<int> queue;

int main()
{
    return run_queue([](int number) { return queue.enqueue(number); }, [](int &number) { return queue.try_dequeue(number); });
}
