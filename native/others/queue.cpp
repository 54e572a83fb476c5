// Two threads put numbers into a queue of oneTBB's and two take them out.
#include <cstdio>
#include <oneapi/tbb/concurrent_queue.h>
#include <sched.h>
#include <thread>

static constexpr long each = 5000;
static tbb::concurrent_queue<long> queue;
static long sums[2][32];

static void put(long first)
{
    for (long i = 0; i < each; i++)
        queue.push(first + 2 * i);
}

static void take(long *sum)
{
    for (long i = 0; i < each; i++) {
        long it;
        while (!queue.try_pop(it))
            sched_yield();
        *sum += it;
    }
}

int main()
{
    std::thread threads[] = {std::thread(put, 0L), std::thread(put, 1L), std::thread(take, sums[0]), std::thread(take, sums[1])};
    for (auto &it : threads)
        it.join();
    std::printf("sum %ld\n", sums[0][0] + sums[1][0]);
    return sums[0][0] + sums[1][0] == each * (2 * each - 1) ? 0 : 1;
}
