// oneTBB's locks that are headers alone: four threads count under a spinning lock, and read under one of readers and writers.
#include <oneapi/tbb/spin_mutex.h>
#include <oneapi/tbb/spin_rw_mutex.h>

#include <cstdio>
#include <thread>

static tbb::spin_mutex lock;
static tbb::spin_rw_mutex table_lock;
static int count, table[8];

static void work(int thread)
{
    for (int round = 0; round < 50; round++) {
        {
            tbb::spin_mutex::scoped_lock held(lock);
            count++;
        }
        tbb::spin_rw_mutex::scoped_lock held(table_lock, round % 10 == 0);
        if (round % 10 == 0)
            table[thread]++;
    }
}

int main()
{
    std::thread threads[4];
    for (int i = 0; i < 4; i++)
        threads[i] = std::thread(work, i);
    for (std::thread &thread : threads)
        thread.join();
    std::printf("%d\n", count + table[0]);
    return count != 200;
}
