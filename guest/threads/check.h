// What the tests of the threads have in common: a claim that ends the run where it doesn't hold, and numbers put out.
#ifndef CHECK_H
#define CHECK_H

#include <pthread.h>
#include "predator.h"

#define HARTS 8
#define CHECK(claim)                                                                                                                       \
    do {                                                                                                                                   \
        if (!(claim))                                                                                                                      \
            fail(__FILE__, __LINE__, #claim);                                                                                              \
    } while (0)

// Text that is put out by one call.
struct check_line {
    char text[200];
    uint32_t length;
};

static inline void check_text(struct check_line *line, const char *text)
{
    while (*text != 0 && line->length < sizeof line->text)
        line->text[line->length++] = *text++;
}

static inline void check_number(struct check_line *line, uint32_t number)
{
    if (number >= 10)
        check_number(line, number / 10);
    check_text(line, (const char[]){(char)('0' + number % 10), 0});
}

static inline _Noreturn void fail(const char *file, uint32_t at, const char *claim)
{
    struct check_line line = {.length = 0};
    check_text(&line, file);
    check_text(&line, ":");
    check_number(&line, at);
    check_text(&line, ": ");
    check_text(&line, claim);
    check_text(&line, "\n");
    predator_write(1, line.text, line.length);
    predator_exit_group(1);
}

static inline void show(const char *what, uint32_t number)
{
    print(what);
    print(" ");
    print_number(number);
    print("\n");
}

// Runs a function on all harts, hart 0 among them, each with its own number below HARTS, and joins them.
static inline void on_all(void *(*run)(void *))
{
    pthread_t threads[HARTS];
    for (uintptr_t i = 1; i < HARTS; i++)
        CHECK(pthread_create(&threads[i], NULL, run, (void *)i) == 0);
    CHECK(run((void *)0) == (void *)0);
    for (uintptr_t i = 1; i < HARTS; i++) {
        void *result = NULL;
        CHECK(pthread_join(threads[i], &result) == 0);
        CHECK(result == (void *)i);
    }
}

#endif
