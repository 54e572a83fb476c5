// What harts print at once comes out call by call, so no line is torn; and errno is each hart's own. The lines are compared in order.
//
// sorted
//> hart 0 line 0: aaaaaaaaaaaaaaaaaaaaaaaaaaaaaaaaaaaaaaaa
//> hart 0 line 1: aaaaaaaaaaaaaaaaaaaaaaaaaaaaaaaaaaaaaaaa
//> hart 0 line 2: aaaaaaaaaaaaaaaaaaaaaaaaaaaaaaaaaaaaaaaa
//> hart 1 line 0: bbbbbbbbbbbbbbbbbbbbbbbbbbbbbbbbbbbbbbbb
//> hart 1 line 1: bbbbbbbbbbbbbbbbbbbbbbbbbbbbbbbbbbbbbbbb
//> hart 1 line 2: bbbbbbbbbbbbbbbbbbbbbbbbbbbbbbbbbbbbbbbb
//> hart 2 line 0: cccccccccccccccccccccccccccccccccccccccc
//> hart 2 line 1: cccccccccccccccccccccccccccccccccccccccc
//> hart 2 line 2: cccccccccccccccccccccccccccccccccccccccc
//> hart 3 line 0: dddddddddddddddddddddddddddddddddddddddd
//> hart 3 line 1: dddddddddddddddddddddddddddddddddddddddd
//> hart 3 line 2: dddddddddddddddddddddddddddddddddddddddd
//> hart 4 line 0: eeeeeeeeeeeeeeeeeeeeeeeeeeeeeeeeeeeeeeee
//> hart 4 line 1: eeeeeeeeeeeeeeeeeeeeeeeeeeeeeeeeeeeeeeee
//> hart 4 line 2: eeeeeeeeeeeeeeeeeeeeeeeeeeeeeeeeeeeeeeee
//> hart 5 line 0: ffffffffffffffffffffffffffffffffffffffff
//> hart 5 line 1: ffffffffffffffffffffffffffffffffffffffff
//> hart 5 line 2: ffffffffffffffffffffffffffffffffffffffff
//> hart 6 line 0: gggggggggggggggggggggggggggggggggggggggg
//> hart 6 line 1: gggggggggggggggggggggggggggggggggggggggg
//> hart 6 line 2: gggggggggggggggggggggggggggggggggggggggg
//> hart 7 line 0: hhhhhhhhhhhhhhhhhhhhhhhhhhhhhhhhhhhhhhhh
//> hart 7 line 1: hhhhhhhhhhhhhhhhhhhhhhhhhhhhhhhhhhhhhhhh
//> hart 7 line 2: hhhhhhhhhhhhhhhhhhhhhhhhhhhhhhhhhhhhhhhh
//> whole 0x00ff -12 3.50 text  c %
#include <errno.h>
#include <stdio.h>
#include <stdlib.h>
#include <string.h>
#include "check.h"

static void *run(void *argument)
{
    int number = (int)(uintptr_t)argument;
    char text[41], own[12];
    memset(text, 'a' + number, 40);
    text[40] = 0;
    for (int i = 0; i < 3; i++) {
        errno = number;
        if (i == 0) {
            printf("hart %d line %d: %s\n", number, i, text);
        } else {
            char line[80];
            CHECK(snprintf(line, sizeof line, "hart %d line %d: %s", number, i, text) == 55);
            if (i == 1)
                puts(line);
            else
                fputs(strcat(line, "\n"), stdout);
        }
        CHECK(errno == number);
        snprintf(own, sizeof own, "%d", number * 1000 + i);
        CHECK(atoi(own) == number * 1000 + i);
    }
    return argument;
}

int main(void)
{
    on_all(run);
    printf("whole %#06x %d %.2f %-5s %c %%\n", 255, -12, 3.5, "text", 'c');
    return 0;
}
