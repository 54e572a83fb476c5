// The calls of a guest: the number in a7, the arguments in a0 to a2, and the answer in a0. predator_spawn stands in start.S.
#include "predator.h"

static int call(int number, uintptr_t first, uintptr_t second, uintptr_t third)
{
    register uintptr_t a0 __asm__("a0") = first;
    register uintptr_t a1 __asm__("a1") = second;
    register uintptr_t a2 __asm__("a2") = third;
    register int a7 __asm__("a7") = number;
    __asm__ volatile("ecall" : "+r"(a0) : "r"(a1), "r"(a2), "r"(a7) : "memory");
    return (int)a0;
}

int predator_write(int file, const void *bytes, size_t count)
{
    return call(64, (uintptr_t)file, (uintptr_t)bytes, count);
}

_Noreturn void predator_exit(int code)
{
    call(93, (uintptr_t)code, 0, 0);
    __builtin_unreachable();
}

_Noreturn void predator_exit_group(int code)
{
    call(94, (uintptr_t)code, 0, 0);
    __builtin_unreachable();
}

void *predator_alloc(size_t size)
{
    return (void *)call(1024, size, 0, 0);
}

int predator_free(void *block)
{
    return call(1025, (uintptr_t)block, 0, 0);
}

int predator_join(int hart)
{
    return call(1027, (uintptr_t)hart, 0, 0);
}

int predator_wait(const volatile uint32_t *word, uint32_t value)
{
    return call(1028, (uintptr_t)word, value, 0);
}

int predator_wake(const volatile uint32_t *word, uint32_t most)
{
    return call(1029, (uintptr_t)word, most, 0);
}

int predator_hart_id(void)
{
    return call(1030, 0, 0, 0);
}
