// Threads, their identities, sleeps and variables of their own.
#include <chrono>
#include <cstdio>
#include <functional>
#include <memory>
#include <mutex>
#include <string>
#include <thread>
#include <vector>

static std::mutex out;

struct Named {
    std::string name = "unnamed";
    ~Named()
    {
        std::lock_guard<std::mutex> guard(out);
        ended += name.size();
    }
    static inline std::size_t ended = 0;
};

static thread_local Named mine;
static thread_local int calls = 0;

static void work(int number, int &result)
{
    mine.name = std::string(number + 1, 'x');
    for (int i = 0; i <= number; i++)
        result += ++calls;
    std::this_thread::sleep_for(std::chrono::microseconds(5));
    std::this_thread::yield();
}

int main()
{
    std::vector<int> results(5);
    {
        std::vector<std::thread> threads;
        for (int i = 0; i < 5; i++)
            threads.emplace_back(work, i, std::ref(results[i]));
        std::thread moved = std::move(threads.back());
        threads.pop_back();
        std::printf("%d %d\n", moved.joinable(), moved.get_id() == std::this_thread::get_id());
        for (auto &thread : threads)
            thread.join();
        moved.join();
        std::printf("%d\n", moved.joinable());
    }
    for (int result : results)
        std::printf("%d ", result);
    std::printf("\n%zu %d\n", Named::ended, std::thread::hardware_concurrency() > 0);
    auto owned = std::make_unique<int>(3);
    std::thread last([owned = std::move(owned)] { std::printf("last %d\n", *owned); });
    last.join();
    std::thread([] {}).detach();
    auto begin = std::chrono::steady_clock::now();
    std::this_thread::sleep_until(begin + std::chrono::microseconds(20));
    std::printf("%d\n", std::chrono::steady_clock::now() - begin >= std::chrono::microseconds(20));
}
