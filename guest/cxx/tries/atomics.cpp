// Atomic variables of each size, and waits for them.
#include <atomic>
#include <cstdint>
#include <cstdio>
#include <thread>
#include <vector>

struct Pair {
    std::uint32_t first, second;
    bool operator==(const Pair &) const = default;
};

static std::atomic<std::uint8_t> small{0};
static std::atomic<std::uint16_t> half{0};
static std::atomic<int> whole{0};
static std::atomic<std::uint64_t> large{0};
static std::atomic<Pair> pair{Pair{0, 0}};
static std::atomic<double> sum{0};
static std::atomic_flag flag;
static std::atomic<bool> goes{false};

static void work()
{
    goes.wait(false);
    for (int i = 0; i < 50; i++) {
        small++;
        half.fetch_add(3);
        whole.fetch_sub(1, std::memory_order_relaxed);
        large.fetch_add(std::uint64_t{1} << 31);
        Pair seen = pair.load();
        while (!pair.compare_exchange_weak(seen, Pair{seen.first + 1, seen.second + 2})) {
        }
        double was = sum.load();
        while (!sum.compare_exchange_strong(was, was + 0.5)) {
        }
        while (flag.test_and_set(std::memory_order_acquire)) {
        }
        flag.clear(std::memory_order_release);
    }
}

int main()
{
    std::vector<std::thread> threads;
    for (int i = 0; i < 4; i++)
        threads.emplace_back(work);
    goes = true;
    goes.notify_all();
    for (auto &thread : threads)
        thread.join();
    std::printf("%d %d %d %llu\n", small.load(), half.load(), whole.load(), (unsigned long long)large.load());
    Pair last = pair.exchange(Pair{1, 1});
    std::printf("%u %u %.1f %d\n", last.first, last.second, sum.load(), flag.test());
    int before = whole.exchange(7);
    std::printf("%d %d\n", before, whole.load());
}
