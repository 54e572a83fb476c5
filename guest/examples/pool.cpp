// Four threads count in neighbouring elements of a vector.
#include <cstdio>
#include <thread>
#include <vector>

struct Worker {
    volatile unsigned hits = 0;
};

int main()
{
    std::vector<Worker> workers(4);
    std::vector<std::thread> threads;
    for (Worker &worker : workers)
        threads.emplace_back([&worker] {
            for (int i = 0; i < 10000; i++)
                worker.hits = worker.hits + 1;
        });
    for (std::thread &thread : threads)
        thread.join();
    unsigned all = 0;
    for (const Worker &worker : workers)
        all += worker.hits;
    std::printf("%u\n", all);
}
