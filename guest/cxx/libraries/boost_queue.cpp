// Boost.Lockfree's queue of many writers and readers.
#include <boost/lockfree/queue.hpp>

#include "run.h"

static boost::lockfree::queue<int> queue(64);

int main()
{
    return run_queue([](int number) { return queue.push(number); }, [](int &number) { return queue.pop(number); });
}
