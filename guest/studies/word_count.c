// Word count, as in the Phoenix suite: each thread keeps the words of its share of a text in a sorted array of its own. How many words
// the arrays have, and room for how many, stands in two arrays of int with an element for each thread.
//
// ROUNDED: what a thread has in the two arrays stands together in 64 bytes of its own, which begin PLACE bytes behind a multiple of the
// line size, a multiple of 4. REPAIRED: it has its own lines.
#include "study.h"

#define WORDS 4200
#define DIFFERENT 400
#define ROOM 16

struct entry {
    const char *word;
    int count;
};

static struct entry *entries[WORKERS];
static char words[WORDS][8];

#ifndef PLACE
#define PLACE 0
#endif

// The place isn't known to the compiler, so that the code is the same for each.
static const volatile size_t place = PLACE;

#if defined(REPAIRED) || defined(ROUNDED)
static struct {
#ifdef REPAIRED
    OWN_LINES
#endif
    int used;
    int room;
#ifdef ROUNDED
    char rest[64 - 2 * sizeof(int)];
#endif
} *lengths;
#define USED(thread) lengths[thread].used
#define HAS_ROOM(thread) lengths[thread].room
#else
static int *use_len, *length;
#define USED(thread) use_len[thread]
#define HAS_ROOM(thread) length[thread]
#endif

// Where the word stands in the thread's array, or would stand.
static int find(uintptr_t thread, const char *word)
{
    int low = 0, high = USED(thread);
    while (low < high) {
        int middle = (low + high) / 2;
        if (strcmp(entries[thread][middle].word, word) < 0)
            low = middle + 1;
        else
            high = middle;
    }
    return low;
}

static void add(uintptr_t thread, const char *word)
{
    int at = find(thread, word);
    if (at < USED(thread) && strcmp(entries[thread][at].word, word) == 0) {
        entries[thread][at].count++;
        return;
    }
    if (USED(thread) == HAS_ROOM(thread)) {
        HAS_ROOM(thread) *= 2;
        entries[thread] = realloc(entries[thread], (size_t)HAS_ROOM(thread) * sizeof(struct entry));
        if (entries[thread] == NULL)
            exit(3);
    }
    for (int i = USED(thread); i > at; i--)
        entries[thread][i] = entries[thread][i - 1];
    entries[thread][at] = (struct entry){word, 1};
    USED(thread)++;
}

static void *count_words(void *argument)
{
    uintptr_t thread = (uintptr_t)argument;
    for (uintptr_t i = thread; i < WORDS; i += WORKERS)
        add(thread, words[i]);
    return NULL;
}

int main(void)
{
#if defined(REPAIRED) || defined(ROUNDED)
    lengths = placed(WORKERS * sizeof *lengths, place);
#else
    use_len = placed(WORKERS * sizeof(int), place);
    length = placed(WORKERS * sizeof(int), place);
#endif
    for (int i = 0; i < WORKERS; i++) {
        HAS_ROOM(i) = ROOM;
        entries[i] = calloc(ROOM, sizeof(struct entry));
    }
    uint32_t state = 1;
    for (int i = 0; i < WORDS; i++)
        for (uint32_t letter = 0, rest = next_random(&state) % DIFFERENT; letter < 4; letter++, rest /= 5)
            words[i][letter] = (char)('a' + rest % 5);
    run_threads(count_words);
    int sum = 0;
    for (int i = 0; i < WORKERS; i++)
        for (int at = 0; at < USED(i); at++)
            sum += entries[i][at].count;
    tell("words", sum);
    return sum == WORDS ? 0 : 1;
}
