/* Containers of C++, by `operator new`: each thread fills and empties a list, a map, a vector and
   strings of its own. */
#include <list>
#include <map>
#include <string>
#include <vector>

#define _Alignas(bytes) alignas(bytes)
#include "driver.h"

namespace
{
constexpr int rounds = 3;
constexpr int held = 16;

void fill(unsigned thread)
{
    std::list<unsigned> list;
    std::map<unsigned, std::string> map;
    std::vector<unsigned> vector;
    uint32_t state = thread + 1;
    for (int it = 0; it < held; it++) {
        list.push_back(thread);
        map.emplace(draw(&state), std::string(run.size + 16, 'a'));
        vector.push_back(draw(&state));
    }
    for (int turn = 0; turn < 4; turn++) {
        for (unsigned &one : list)
            one++;
        for (unsigned &one : vector)
            one++;
        for (auto &one : map)
            one.second[0]++;
    }
    while (list.size() > held / 2)
        list.pop_front();
    for (int it = 0; it < held / 2; it++) {
        map.erase(map.begin());
        list.push_back(thread);
    }
}

void work(unsigned thread)
{
    for (int round = 0; round < rounds; round++)
        fill(thread);
}
} // namespace

int main(int count, char **words) { return run_driver(count, words, nullptr, work); }
