// A program that another linker lays out, without link.ld: code, a constant, a number and zeros. It writes a line, and ends
// with 7 and the 7 bytes that it wrote.
static const char text[] = "linked\n";
int counter = 7;
int zeros[4];

static int call(int number, int a, const void *b, int c)
{
    register int a0 __asm__("a0") = a;
    register const void *a1 __asm__("a1") = b;
    register int a2 __asm__("a2") = c;
    register int a7 __asm__("a7") = number;
    __asm__ volatile("ecall" : "+r"(a0) : "r"(a1), "r"(a2), "r"(a7) : "memory");
    return a0;
}

void _start(void)
{
    zeros[1] = call(64, 1, text, 7);
    counter += zeros[1];
    call(94, counter, 0, 0);
}
