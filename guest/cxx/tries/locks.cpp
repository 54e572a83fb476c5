// Locks of each kind, what waits under them, and what is done once.
#include <chrono>
#include <condition_variable>
#include <cstdio>
#include <mutex>
#include <shared_mutex>
#include <thread>
#include <vector>

using namespace std::chrono_literals;

static std::mutex plain, other;
static std::recursive_mutex again;
static std::timed_mutex timed;
static std::recursive_timed_mutex both;
static std::shared_mutex shared;
static std::shared_timed_mutex shared_timed;
static std::condition_variable ready;
static std::condition_variable_any any;
static std::once_flag once;
static int turn, counts[6], made;

static void deep(int left)
{
    std::lock_guard<std::recursive_mutex> guard(again);
    if (left > 0)
        deep(left - 1);
    else
        counts[1]++;
}

static void work(int number)
{
    std::call_once(once, [] { made++; });
    {
        std::unique_lock<std::mutex> guard(plain);
        ready.wait(guard, [&] { return turn == number; });
        turn++;
        ready.notify_all();
    }
    for (int i = 0; i < 20; i++) {
        {
            std::scoped_lock guard(plain, other);
            counts[0]++;
        }
        deep(3);
        if (timed.try_lock_for(1s)) {
            counts[2]++;
            timed.unlock();
        }
        {
            std::lock_guard<std::recursive_timed_mutex> guard(both);
            std::lock_guard<std::recursive_timed_mutex> more(both);
            counts[3]++;
        }
        if (i % 4 == 0) {
            std::unique_lock<std::shared_mutex> guard(shared);
            counts[4]++;
        } else {
            std::shared_lock<std::shared_mutex> guard(shared);
            if (counts[4] < 0)
                counts[4] = 0;
        }
        {
            std::unique_lock<std::shared_timed_mutex> guard(shared_timed);
            counts[5]++;
            any.notify_one();
        }
    }
}

int main()
{
    std::vector<std::thread> threads;
    for (int i = 0; i < 4; i++)
        threads.emplace_back(work, i);
    {
        std::unique_lock<std::shared_timed_mutex> guard(shared_timed);
        any.wait(guard, [] { return counts[5] >= 40; });
    }
    for (auto &thread : threads)
        thread.join();
    for (int count : counts)
        std::printf("%d ", count);
    std::printf("%d %d\n", made, turn);
    std::unique_lock<std::mutex> guard(plain);
    std::printf("%d %d\n", plain.try_lock(), other.try_lock());
    auto until = std::chrono::steady_clock::now() + 10us;
    while (ready.wait_until(guard, until) != std::cv_status::timeout) {
    }
    std::printf("%d\n", std::chrono::steady_clock::now() >= until);
    std::printf("%d\n", ready.wait_for(guard, 10us, [] { return false; }));
    std::thread late([] { std::printf("%d\n", timed.try_lock_for(10us)); });
    late.join();
    std::thread shares([] { std::printf("%d %d\n", shared.try_lock_shared(), shared_timed.try_lock_for(10us)); });
    shares.join();
}
