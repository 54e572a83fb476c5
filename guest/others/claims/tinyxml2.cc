// Four threads, each with a document of its own of TinyXML-2, which they read, lengthen and print.
#include <pthread.h>
#include <stdio.h>

#include <tinyxml2.h>

#define THREADS 4

static const char *const text =
    "<rings><ring name='one'><slot at='1'/><slot at='2'/></ring><ring name='two'><slot at='40'/></ring></rings>";

static void *work(void *number)
{
    tinyxml2::XMLDocument document;
    tinyxml2::XMLPrinter printed;
    long sum = 0;
    if (document.Parse(text) != tinyxml2::XML_SUCCESS)
        return nullptr;
    for (int round = 0; round < 5; round++)
        for (auto *ring = document.RootElement()->FirstChildElement("ring"); ring; ring = ring->NextSiblingElement("ring")) {
            for (auto *slot = ring->FirstChildElement("slot"); slot; slot = slot->NextSiblingElement("slot"))
                sum += slot->IntAttribute("at");
            ring->InsertNewChildElement("slot")->SetAttribute("at", static_cast<int>(reinterpret_cast<long>(number)));
        }
    document.Print(&printed);
    return reinterpret_cast<void *>(1000 * sum + static_cast<long>(printed.CStrSize()));
}

int main()
{
    pthread_t threads[THREADS];
    for (long i = 0; i < THREADS; i++)
        if (pthread_create(&threads[i], nullptr, work, reinterpret_cast<void *>(i)) != 0)
            return 1;
    for (int i = 0; i < THREADS; i++) {
        void *sum;
        pthread_join(threads[i], &sum);
        printf("%d: %ld\n", i, reinterpret_cast<long>(sum));
    }
}
