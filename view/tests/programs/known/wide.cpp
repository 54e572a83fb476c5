/* Two threads write one block of an aligned type each its own member. */
#include <thread>

struct alignas(64) Wide {
    volatile int hits;
    volatile int misses;
};

int main()
{
    Wide *wide = new Wide{};
    std::thread first([wide] { for (int i = 0; i < 2000; i++) wide->hits = i; });
    std::thread second([wide] { for (int i = 0; i < 2000; i++) wide->misses = i; });
    first.join();
    second.join();
    return 0;
}
