// Containers, and blocks with an alignment of their own.
#include <algorithm>
#include <array>
#include <cstdint>
#include <cstdio>
#include <deque>
#include <forward_list>
#include <list>
#include <map>
#include <new>
#include <numeric>
#include <queue>
#include <set>
#include <stack>
#include <string>
#include <unordered_map>
#include <unordered_set>
#include <vector>

struct alignas(64) Line {
    int hits = 0;
};

int main()
{
    std::vector<Line> lines(5);
    bool is_aligned = true;
    for (auto &line : lines)
        is_aligned = is_aligned && reinterpret_cast<std::uintptr_t>(&line) % 64 == 0;
    std::printf("%d %zu\n", is_aligned, sizeof(Line));
    auto *large = new (std::align_val_t(256)) char[300];
    std::printf("%d\n", reinterpret_cast<std::uintptr_t>(large) % 256 == 0);
    ::operator delete[](large, std::align_val_t(256));
    auto *one = new (std::nothrow) Line;
    auto *many_lines = new (std::nothrow) Line[3];
    std::printf("%d %d\n", reinterpret_cast<std::uintptr_t>(one) % 64 == 0, reinterpret_cast<std::uintptr_t>(many_lines) % 64 == 0);
    ::operator delete(one, std::align_val_t(64), std::nothrow);
    delete[] many_lines;
    ::operator delete(::operator new(8, std::nothrow), std::nothrow);
    std::vector<int> numbers(20);
    std::iota(numbers.begin(), numbers.end(), 1);
    std::reverse(numbers.begin(), numbers.end());
    std::sort(numbers.begin() + 5, numbers.end());
    std::printf("%d %d %d\n", numbers[4], numbers[5], std::accumulate(numbers.begin(), numbers.end(), 0));
    std::vector<bool> bits(70, true);
    bits[3] = false;
    std::printf("%zu\n", (std::size_t)std::count(bits.begin(), bits.end(), true));
    std::deque<std::string> words{"b", "c"};
    words.push_front("a");
    words.insert(words.end(), 300, "z");
    std::printf("%s %s %zu\n", words.front().c_str(), words.back().c_str(), words.size());
    std::list<int> chain{3, 1, 2};
    chain.sort();
    chain.remove(2);
    std::forward_list<int> front{1, 2};
    front.push_front(0);
    std::printf("%d %d %d\n", chain.front(), chain.back(), front.front());
    std::map<std::string, int> ages{{"ada", 36}, {"alan", 41}};
    ages["grace"] = 85;
    for (auto &[name, age] : ages)
        std::printf("%s %d, ", name.c_str(), age);
    std::multimap<int, int> many{{1, 1}, {1, 2}};
    std::printf("%zu\n", many.count(1));
    std::unordered_map<int, std::string> names;
    for (int i = 0; i < 200; i++)
        names[i * 37] = std::to_string(i);
    std::unordered_set<std::string> seen{"x", "y", "x"};
    std::printf("%s %zu %zu\n", names.at(370).c_str(), names.size(), seen.size());
    std::set<int> order{3, 1, 2};
    std::priority_queue<int> heap;
    for (int number : {5, 9, 2})
        heap.push(number);
    std::stack<int> pile;
    pile.push(1);
    std::queue<int> line;
    line.push(4);
    std::array<int, 3> fixed{7, 8, 9};
    std::printf("%d %d %d %d %d\n", *order.begin(), heap.top(), pile.top(), line.front(), fixed.back());
}
