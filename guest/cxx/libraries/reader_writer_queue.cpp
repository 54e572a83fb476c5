// moodycamel's ReaderWriterQueue: one thread puts numbers in, one takes them out.
#include <readerwriterqueue/readerwriterqueue.h>

#include "run.h"

static moodycamel::ReaderWriterQueue<int> queue(64);

int main()
{
    return run_queue([](int number) { return queue.enqueue(number); }, [](int &number) { return queue.try_dequeue(number); }, 1);
}
