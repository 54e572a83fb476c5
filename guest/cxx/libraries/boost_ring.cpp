// Boost.Lockfree's ring for one writer and one reader.
#include <boost/lockfree/spsc_queue.hpp>

#include "run.h"

static boost::lockfree::spsc_queue<int, boost::lockfree::capacity<64>> ring;

int main()
{
    return run_queue([](int number) { return ring.push(number); }, [](int &number) { return ring.pop(number); }, 1);
}
