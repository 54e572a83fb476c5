/* Four threads, each with events of its own, make their event anew each time that it comes, as a server does for each question. */
#include <event2/event.h>
#include <event2/event_struct.h>
#include <pthread.h>
#include <stdio.h>

#define ROUNDS 3000

static struct own {
    _Alignas(128) struct event_base *base;
    struct event event;
    int left;
} owns[4];

static void again(evutil_socket_t file, short what, void *its)
{
    struct own *own = its;
    if (own->left-- == 0)
        return;
    event_assign(&own->event, own->base, -1, 0, again, own);
    event_active(&own->event, EV_TIMEOUT, 0);
}

static void *work(void *its)
{
    struct own *own = its;
    own->base = event_base_new();
    own->left = ROUNDS;
    again(-1, 0, own);
    event_base_dispatch(own->base);
    event_base_free(own->base);
    return 0;
}

int main(void)
{
    pthread_t threads[4];
    int left = 0;
    for (int i = 0; i < 4; i++)
        pthread_create(&threads[i], 0, work, &owns[i]);
    for (int i = 0; i < 4; i++) {
        pthread_join(threads[i], 0);
        left += owns[i].left;
    }
    printf("left %d\n", left);
    return left == -4 ? 0 : 1;
}
