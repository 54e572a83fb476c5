// What the drivers share: a queue that two threads fill and two empty, and the check that each number came once.
#ifndef PREDATOR_LIBRARIES_RUN_H
#define PREDATOR_LIBRARIES_RUN_H

#include <atomic>
#include <cstdio>
#include <cstdlib>
#include <exception>
#include <thread>

// Boost calls this in place of a throw where a program has no exceptions.
namespace boost {
inline void throw_exception(const std::exception &error)
{
    std::fputs(error.what(), stderr);
    std::abort();
}
} // namespace boost

constexpr int NUMBERS = 200;

// put(number) and take(number) are false where the queue is full or empty. `pairs` threads put the numbers 1 to NUMBERS each, and as many
// take them out. The result is a status for main.
template <typename Put, typename Take> int run_queue(Put put, Take take, int pairs = 2)
{
    std::atomic<int> taken{0}, sum{0};
    auto fill = [&] {
        for (int number = 1; number <= NUMBERS; number++)
            while (!put(number))
                std::this_thread::yield();
    };
    auto empty = [&] {
        int own = 0, number;
        while (taken.load(std::memory_order_relaxed) < pairs * NUMBERS) {
            if (!take(number)) {
                std::this_thread::yield();
                continue;
            }
            own += number;
            taken.fetch_add(1, std::memory_order_relaxed);
        }
        sum += own;
    };
    std::thread threads[4];
    for (int i = 0; i < pairs; i++) {
        threads[2 * i] = std::thread(fill);
        threads[2 * i + 1] = std::thread(empty);
    }
    for (int i = 0; i < 2 * pairs; i++)
        threads[i].join();
    bool is_right = sum == pairs * NUMBERS * (NUMBERS + 1) / 2;
    std::printf("%s\n", is_right ? "each number came once" : "numbers were lost");
    return !is_right;
}

#endif
