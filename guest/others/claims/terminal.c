// Is a file a terminal, as zstd asks it or, with XZ, xz?
#include <stdio.h>
#ifdef XZ
#include <stdbool.h>
bool is_tty_stdin(void);
bool is_tty_stdout(void);
#define TERMINALS() (is_tty_stdin() + is_tty_stdout())
#else
#include "platform.h"
#define TERMINALS() ((IS_CONSOLE(stdin) != 0) + (IS_CONSOLE(stdout) != 0) + (IS_CONSOLE(stderr) != 0))
#endif

int main(void)
{
    printf("%d terminals\n", (int)TERMINALS());
    return 0;
}
