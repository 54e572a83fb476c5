// The calls of a guest (guest/predator.h) for this machine, so that the examples of guest/ are built for it as they are: see guest.py.
#ifndef PREDATOR_H
#define PREDATOR_H

#include <stddef.h>
#include <stdint.h>

// A variable alone in lines of any size up to 256 bytes.
#define ALONE PREDATOR_ALONE(__COUNTER__)
#define PREDATOR_ALONE(number) PREDATOR_ALONE_IN(number)
#define PREDATOR_ALONE_IN(number)                                                                              \
    __asm__(".pushsection .alone." #number ",\"aw\",@progbits\n.subsection 1\n.zero 256\n.popsection");         \
    __attribute__((section(".alone." #number), aligned(256)))

int predator_write(int file, const void *bytes, size_t count);
_Noreturn void predator_exit_group(int code);
void *predator_alloc(size_t size);
int predator_free(void *block);
int predator_spawn(int (*run)(void *), void *argument);
int predator_join(int hart);
int predator_wait(const volatile uint32_t *word, uint32_t value);
int predator_wake(const volatile uint32_t *word, uint32_t most);
int predator_hart_id(void);
void print(const char *text);
void print_number(uint32_t number);

#endif
