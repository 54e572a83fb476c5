/* Two threads count in records that allocate_shared makes, with an allocator that has fields. */
#include <memory>
#include <thread>

struct Worker {
    volatile int hits = 0;
    volatile int misses = 0;
};

template <class Value> struct Counted : std::allocator<Value> {
    int *count;
    long limit = 1000;
    Counted(int *count) : count(count) {}
    template <class Other> Counted(const Counted<Other> &other) : count(other.count) {}
    template <class Other> struct rebind {
        using other = Counted<Other>;
    };
    Value *allocate(std::size_t many)
    {
        ++*count;
        return std::allocator<Value>::allocate(many);
    }
};

static int count;

int main()
{
    std::shared_ptr<Worker> workers[2];
    for (auto &worker : workers)
        worker = std::allocate_shared<Worker>(Counted<Worker>(&count));
    std::thread threads[2];
    for (int i = 0; i < 2; i++)
        threads[i] = std::thread([&worker = *workers[i]] {
            for (int k = 0; k < 1000; k++)
                worker.misses = k;
        });
    for (auto &thread : threads)
        thread.join();
    return count - 2;
}
