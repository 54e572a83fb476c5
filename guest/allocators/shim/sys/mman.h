// What an allocator that is built for a system with pages asks of it. shim.c gives it from one block of the guest's heap.
#ifndef SHIM_SYS_MMAN_H
#define SHIM_SYS_MMAN_H

#include <stddef.h>
#include <sys/types.h>

#define PROT_NONE 0
#define PROT_READ 1
#define PROT_WRITE 2
#define MAP_PRIVATE 2
#define MAP_ANONYMOUS 32
#define MAP_FAILED ((void *)-1)
#define MADV_NORMAL 0
#define MADV_DONTNEED 4

void *mmap(void *at, size_t size, int rights, int flags, int file, off_t from);
int munmap(void *at, size_t size);
int mprotect(void *at, size_t size, int rights);
int madvise(void *at, size_t size, int advice);

#endif
