// Semaphores, latches, barriers.
#include <atomic>
#include <barrier>
#include <chrono>
#include <cstdio>
#include <latch>
#include <semaphore>
#include <thread>
#include <vector>

static std::counting_semaphore<3> rooms(3);
static std::binary_semaphore signal(0);
static std::latch begins(4);
static std::atomic<int> inside{0}, most{0};
static int phases;

static void complete() noexcept { phases++; }

static std::barrier<void (*)() noexcept> rounds(4, complete);

static void work(int number)
{
    begins.arrive_and_wait();
    for (int i = 0; i < 5; i++) {
        rooms.acquire();
        int now = ++inside, seen = most.load();
        while (seen < now && !most.compare_exchange_weak(seen, now)) {
        }
        std::this_thread::yield();
        --inside;
        rooms.release();
        rounds.arrive_and_wait();
    }
    if (number == 0)
        signal.release();
    rounds.arrive_and_drop();
}

int main()
{
    std::vector<std::thread> threads;
    for (int i = 0; i < 4; i++)
        threads.emplace_back(work, i);
    signal.acquire();
    for (auto &thread : threads)
        thread.join();
    std::printf("%d %d %d\n", most.load() <= 3, phases, begins.try_wait());
    std::printf("%d\n", signal.try_acquire_for(std::chrono::microseconds(10)));
    std::printf("%d\n", rooms.try_acquire());
}
