/* Four threads count in records that C++ makes in one of several ways, each thread in its own. */
#include <atomic>
#include <memory>
#include <optional>
#include <thread>
#include <vector>

template <class Number> struct Pair {
    Number first{}, second{};
};
class Worker {
public:
    std::atomic<int> hits{0};
    Pair<int> seen;
};
struct Queue {
    std::atomic<int> produced{0};
    std::atomic<int> consumed{0};
    int room = 8;
};

#if defined(SHARED)
static std::shared_ptr<Worker> workers[4];
static void make(int i) { workers[i] = std::make_shared<Worker>(); }
#elif defined(UNIQUE)
static std::unique_ptr<Worker> workers[4];
static void make(int i) { workers[i] = std::make_unique<Worker>(); }
#elif defined(MAYBE)
static std::optional<Worker> workers[4];
static void make(int i) { workers[i].emplace(); }
#elif defined(VECTOR)
static std::vector<Worker> made(4);
static Worker *workers[4];
static void make(int i) { workers[i] = &made[i]; }
#elif defined(VARIABLES)
static Worker one, two[1], three, four;
static Worker *workers[4] = {&one, two, &three, &four};
static void make(int) {}
#else
static Worker *workers[4];
static void make(int i) { workers[i] = new Worker; }
#endif
static Queue *queue;

static void work(int i)
{
    for (int k = 0; k < 500; k++) {
#ifdef QUEUE
        if (i < 2 && queue->room > 0)
            (i == 0 ? queue->produced : queue->consumed)++;
#else
        workers[i]->hits++;
        workers[i]->seen.second++;
#endif
    }
}

int main()
{
    queue = new Queue;
    std::thread threads[4];
    for (int i = 0; i < 4; i++)
        make(i);
    for (int i = 0; i < 4; i++)
        threads[i] = std::thread(work, i);
    for (auto &thread : threads)
        thread.join();
    return 0;
}
