// Futures, promises, tasks.
#include <chrono>
#include <cstdio>
#include <future>
#include <string>
#include <thread>
#include <vector>

static int sum(int from, int to)
{
    int all = 0;
    for (int i = from; i < to; i++)
        all += i;
    return all;
}

int main()
{
    std::vector<std::future<int>> parts;
    for (int i = 0; i < 4; i++)
        parts.push_back(std::async(std::launch::async, sum, 25 * i, 25 * (i + 1)));
    int all = 0;
    for (auto &part : parts)
        all += part.get();
    std::printf("%d\n", all);
    auto later = std::async(std::launch::deferred, [] { return std::string("deferred"); });
    bool waits_for_it = later.wait_for(std::chrono::seconds(0)) == std::future_status::deferred;
    std::printf("%d %s\n", waits_for_it, later.get().c_str());
    std::promise<std::string> promise;
    std::shared_future<std::string> shared = promise.get_future().share();
    std::thread one([shared] { std::printf("%zu\n", shared.get().size()); });
    promise.set_value("a promise");
    one.join();
    std::promise<void> done;
    auto waits = done.get_future();
    std::thread two([&done] { done.set_value(); });
    waits.get();
    two.join();
    std::packaged_task<int(int)> task([](int x) { return 3 * x; });
    auto result = task.get_future();
    std::thread three(std::move(task), 14);
    three.join();
    std::printf("%d\n", result.get());
    int target = 5;
    std::promise<int &> reference;
    auto refers = reference.get_future();
    reference.set_value(target);
    refers.get() = 6;
    std::printf("%d %d\n", target, refers.valid());
    std::promise<int> slow;
    auto timed = slow.get_future();
    std::printf("%d\n", timed.wait_for(std::chrono::microseconds(5)) == std::future_status::timeout);
}
