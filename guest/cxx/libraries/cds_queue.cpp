// libcds' VyukovMPMCCycleQueue, a ring for many writers and readers.
#include <cds/container/vyukov_mpmc_cycle_queue.h>

#include "run.h"

static cds::container::VyukovMPMCCycleQueue<int> queue(64);

int main()
{
    return run_queue([](int number) { return queue.enqueue(number); }, [](int &number) { return queue.dequeue(number); });
}
