// Four threads, each with a document of its own of pugixml, which they read, lengthen and search, by one query that the first of them makes.
#include <pthread.h>
#include <stdio.h>

#include <pugixml.hpp>

#define THREADS 4

static const char *const text =
    "<rings><ring name='one'><slot at='1'/><slot at='2'/></ring><ring name='two'><slot at='40'/></ring></rings>";

static void *work(void *number)
{
    pugi::xml_document document;
    long sum = 0;
    if (!document.load_string(text))
        return nullptr;
    for (int round = 0; round < 5; round++)
        for (auto ring : document.child("rings").children("ring")) {
            for (auto slot : ring.children("slot"))
                sum += slot.attribute("at").as_int();
            ring.append_child("slot").append_attribute("at") = static_cast<int>(reinterpret_cast<long>(number));
        }
    static const pugi::xpath_query query("//slot[@at > 1]");
    pugi::xpath_node_set found = query.evaluate_node_set(document);
    return reinterpret_cast<void *>(100 * sum + static_cast<long>(found.size()));
}

int main()
{
    pthread_t threads[THREADS];
    for (long i = 0; i < THREADS; i++)
        if (pthread_create(&threads[i], nullptr, work, reinterpret_cast<void *>(i)) != 0)
            return 1;
    for (int i = 0; i < THREADS; i++) {
        void *sum;
        pthread_join(threads[i], &sum);
        printf("%d: %ld\n", i, reinterpret_cast<long>(sum));
    }
}
