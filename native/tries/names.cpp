// Variables, types and call sites of C++ whose names are hard to find. -DHIDDEN compiles the other file of the program.
#include <atomic>
#include <cstdint>
#include <map>
#include <string>
#include <thread>
#include <vector>

extern struct Hidden *hidden;
extern struct Hidden *make_hidden();
extern void use_hidden(int me);
extern "C" unsigned *bare_make(void);

#ifdef HIDDEN
struct Hidden {
    unsigned left, right, more[4];
};
struct Hidden *hidden;
struct Hidden *make_hidden() { return hidden = new Hidden[1](); }
void use_hidden(int me) { (me % 2 ? hidden->left : hidden->right)++; }
#else
namespace app {
namespace detail {
struct Slot {
    std::atomic<std::uint64_t> hits;
    std::atomic<std::uint32_t> misses;
};
static Slot slots[4];
template <class Key, class Value> struct Table {
    static Slot own[4];
};
template <class Key, class Value> Slot Table<Key, Value>::own[4];
} // namespace detail

class Pool {
public:
    static detail::Slot shared[4];
    detail::Slot *lease();
};
detail::Slot Pool::shared[4];
detail::Slot *Pool::lease() { return new detail::Slot[4](); }
} // namespace app

struct Slot {
    char others[16];
};

static app::detail::Slot &in_function(int at)
{
    static app::detail::Slot local[4];
    return local[at];
}

template <class Work> static void each(Work work)
{
    std::vector<std::thread> threads;
    for (int me = 0; me < 4; me++)
        threads.emplace_back([=] {
            for (int i = 0; i < 1000; i++)
                work(me);
        });
    for (auto &it : threads)
        it.join();
}

int main()
{
    Slot plain = {};
    auto *block = app::Pool().lease();
    auto *bare = bare_make();
    make_hidden();
    each([](int me) { app::detail::slots[me].hits++; });
    each([](int me) { app::detail::Table<std::string, std::vector<int>>::own[me].hits++; });
    each([](int me) { app::Pool::shared[me].misses++; });
    each([](int me) { in_function(me).hits++; });
    each([=](int me) { block[me].hits++; });
    each([=](int me) { ((std::atomic<unsigned> *)bare)[me]++; });
    each([](int me) { use_hidden(me); });
    return plain.others[0];
}
#endif
