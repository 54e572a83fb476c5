// What C++ makes of futexes and of conditions with a clock: futures, latches, barriers, semaphores, atomics that wait, locks with a time.
#include <atomic>
#include <barrier>
#include <chrono>
#include <condition_variable>
#include <cstdio>
#include <future>
#include <latch>
#include <mutex>
#include <semaphore>
#include <shared_mutex>
#include <thread>
#include <vector>

using namespace std::chrono_literals;

static std::shared_timed_mutex readers;
static std::timed_mutex timed;
static std::mutex lock;
static std::condition_variable turned;
static std::latch begun(4);
static std::barrier<> meet(4);
static std::counting_semaphore<8> passes(0);
static std::atomic<int> ready(0);
static long sum, read_right, woken, late;
static bool go;

static void work(int me)
{
    begun.arrive_and_wait();
    for (int i = 0; i < 300; i++) {
        {
            std::unique_lock own(readers);
            sum++;
        }
        {
            std::shared_lock own(readers);
            read_right += sum > i;
        }
        if (timed.try_lock_for(20s))
            timed.unlock();
    }
    meet.arrive_and_wait();
    std::unique_lock own(lock);
    if (me == 0) {
        late += !turned.wait_for(own, 20ms, [] { return go; });
        go = true;
        turned.notify_all();
    }
    woken += turned.wait_for(own, 20s, [] { return go; });
    own.unlock();
    if (me == 0)
        for (int i = 0; i < 3; i++)
            passes.acquire();
    else
        passes.release();
    if (me == 3) {
        ready = 1;
        ready.notify_all();
    }
    ready.wait(0);
}

int main()
{
    std::vector<std::thread> threads;
    for (int me = 0; me < 4; me++)
        threads.emplace_back(work, me);
    for (auto &it : threads)
        it.join();
    auto counted = std::async(std::launch::async, [] {
        for (int i = 0; i < 1000; i++)
            sum++;
        return 7;
    });
    std::promise<int> promised;
    auto kept = promised.get_future();
    std::thread keeps([&] { promised.set_value(8); });
    int first = kept.get(), second = counted.get();
    keeps.join();
    std::printf("sum %ld read %ld late %ld woken %ld ready %d futures %d %d\n", sum, read_right, late, woken, ready.load(), first, second);
}
