// String match, as in the Phoenix suite: each thread takes the words of its share of a text one by one, enciphers each, and compares it
// with four keys. It has two blocks of the heap for this, and clears both whole before each word. So where a block doesn't begin with
// a line, the threads on both sides of its border write to the line there.
//
// PLACE is how far all blocks are moved, as by a header or by a block that was made before: a multiple of 16. REPAIRED: the two stand
// on the thread's stack.
#include "study.h"

#define LONGEST 1024
#define WORDS 72
#define KEYS 4

#ifndef PLACE
#define PLACE 16
#endif

// The place isn't known to the compiler, so that the code is the same for each.
static const volatile size_t place = PLACE;

static const char *const keys[KEYS] = {"Helloworld", "howareyou", "ferrari", "whotheman"};
static char ciphers[KEYS][16];
static const char *text[WORKERS];
static int found[WORKERS];

static void encipher(const char *word, char *cipher)
{
    while (*word != 0)
        *cipher++ = (char)(*word++ + 5);
    *cipher = 0;
}

// The next word of a text, and where the text goes on.
static const char *next_word(const char *from, char *word)
{
    while (*from != ' ' && *from != 0)
        *word++ = *from++;
    *word = 0;
    return *from == ' ' ? from + 1 : from;
}

static int match(const char *from, char *word, char *cipher)
{
    int matches = 0;
    while (*from != 0) {
        memset(word, 0, LONGEST);
        memset(cipher, 0, LONGEST);
        from = next_word(from, word);
        encipher(word, cipher);
        for (int i = 0; i < KEYS; i++)
            matches += strcmp(cipher, ciphers[i]) == 0;
    }
    return matches;
}

static void *search(void *argument)
{
    uintptr_t number = (uintptr_t)argument;
#ifdef REPAIRED
    char word[LONGEST], cipher[LONGEST];
    found[number] = match(text[number], word, cipher);
#else
    char *word = malloc(LONGEST), *cipher = malloc(LONGEST);
    found[number] = match(text[number], word, cipher);
    free(word);
    free(cipher);
#endif
    return NULL;
}

// A text whose every third word is a key.
static const char *make_text(uint32_t state)
{
    char *made = malloc(WORDS * 16), *at = made;
    for (int i = 0; i < WORDS; i++) {
        const char *key = keys[next_random(&state) % KEYS];
        size_t length = i % 3 == 0 ? strlen(key) : 3 + next_random(&state) % 4;
        memcpy(at, key, length);
        at += length;
        *at++ = ' ';
    }
    at[-1] = 0;
    return made;
}

// What is asked for next would begin with a line but for PLACE, and so would what follows, in blocks of LONGEST bytes.
static void move_blocks(void)
{
    static char *volatile block;
    block = malloc(16);
    size_t gap = (-(uintptr_t)block - 16) & 255;
    if (gap + place > 0)
        block = malloc(gap + place);
}

int main(void)
{
    for (int i = 0; i < KEYS; i++)
        encipher(keys[i], ciphers[i]);
    for (uint32_t i = 0; i < WORKERS; i++)
        text[i] = make_text(i);
    move_blocks();
    run_threads(search);
    int sum = 0;
    for (int i = 0; i < WORKERS; i++)
        sum += found[i];
    tell("found", sum);
    return sum == WORKERS * WORDS / 3 ? 0 : 1;
}
