// A reverse index, as in the Phoenix suite: each thread reads its share of the documents and keeps, for each link that it finds there, a
// list of the documents that have it. How many links it has stands in an array of int with an element for each thread.
//
// REPAIRED: a thread counts in a variable of its own, and stores the number once.
#include "study.h"

#define DOCUMENTS 70
#define LINES 12
#define TARGETS 240
#define LONGEST 32

// One document that has the link.
struct mention {
    struct mention *next;
    int document;
};

struct link {
    char target[16];
    struct mention *mentions;
};

static char documents[DOCUMENTS][LINES][LONGEST];
static struct link *links[WORKERS];
static int *use_len;

// The target of the link in a line of text, or null.
static const char *link_in(const char *line, char *target)
{
    const char *at = strstr(line, "href=\"");
    if (at == NULL)
        return NULL;
    at += 6;
    size_t length = strcspn(at, "\"");
    memcpy(target, at, length);
    target[length] = 0;
    return target;
}

static void mention(struct link *link, int document)
{
    struct mention *made = malloc(sizeof *made);
    if (made == NULL)
        exit(3);
    made->next = link->mentions;
    made->document = document;
    link->mentions = made;
}

// Puts the link into its place of the sorted array, if it isn't there, and says how many there are.
static int insert(struct link *own, int used, const char *target, int document)
{
    int at = 0;
    while (at < used && strcmp(own[at].target, target) < 0)
        at++;
    if (at == used || strcmp(own[at].target, target) != 0) {
        memmove(own + at + 1, own + at, (size_t)(used - at) * sizeof *own);
        memset(&own[at], 0, sizeof own[at]);
        strcpy(own[at].target, target);
        used++;
    }
    mention(&own[at], document);
    return used;
}

static void *read_documents(void *argument)
{
    uintptr_t thread = (uintptr_t)argument;
    char target[LONGEST];
#ifdef REPAIRED
    int used = 0;
#define USED used
#else
#define USED use_len[thread]
#endif
    for (int document = (int)thread; document < DOCUMENTS; document += WORKERS)
        for (int line = 0; line < LINES; line++)
            if (link_in(documents[document][line], target) != NULL) {
                int now = insert(links[thread], USED, target, document);
                if (now != USED)
                    USED = now;
            }
#ifdef REPAIRED
    use_len[thread] = used;
#endif
    return NULL;
}

static void make_documents(void)
{
    uint32_t state = 1;
    for (int document = 0; document < DOCUMENTS; document++)
        for (int line = 0; line < LINES; line++) {
            char *at = documents[document][line];
            uint32_t target = next_random(&state) % TARGETS;
            strcpy(at, line % 4 == 3 ? "no link here" : "see <a href=\"/page/000\">");
            for (int digit = 0; line % 4 != 3 && digit < 3; digit++, target /= 10)
                at[21 - digit] = (char)('0' + target % 10);
        }
}

int main(void)
{
    make_documents();
    use_len = calloc(WORKERS, sizeof(int));
    for (int i = 0; i < WORKERS; i++)
        links[i] = calloc(TARGETS, sizeof(struct link));
    run_threads(read_documents);
    int mentions = 0;
    for (int i = 0; i < WORKERS; i++)
        for (int at = 0; at < use_len[i]; at++)
            for (struct mention *it = links[i][at].mentions; it != NULL; it = it->next)
                mentions++;
    tell("mentions", mentions);
    return mentions == DOCUMENTS * (LINES - LINES / 4) ? 0 : 1;
}
