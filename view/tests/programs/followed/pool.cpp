// Workers in a vector, and others in blocks of their own, by threads that run a lambda.
#include <atomic>
#include <memory>
#include <thread>
#include <vector>

namespace app {
struct Worker {
    std::atomic<long> done{0};
    long retries = 0;
};
}

int main()
{
    std::vector<std::unique_ptr<app::Worker>> apart;
    for (int i = 0; i < 4; i++)
        apart.push_back(std::make_unique<app::Worker>());
    std::vector<app::Worker> workers(4);
    std::vector<std::thread> threads;
    for (int me = 0; me < 4; me++)
        threads.emplace_back([&, me] {
            for (int i = 0; i < 500; i++) {
                workers[me].done++;
                apart[me]->done++;
            }
        });
    for (auto &it : threads)
        it.join();
}
