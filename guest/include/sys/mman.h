// Anonymous memory: a mapping is a block of the run's heap, at a multiple of 4096, and its bytes are 0. It may be read and written whatever
// is said; what is to be executed, a file's bytes and a fixed address answer MAP_FAILED, with ENOTSUP, ENODEV and ENOTSUP. munmap frees
// mappings that lie wholly in its range. A part of one stays in use, and the answer is 0.
#ifndef PREDATOR_SYS_MMAN_H
#define PREDATOR_SYS_MMAN_H

#include <predator_missing.h>
#include <sys/types.h>

#ifdef __cplusplus
extern "C" {
#endif

#define PROT_NONE 0
#define PROT_READ 1
#define PROT_WRITE 2
#define PROT_EXEC 4

#define MAP_SHARED 1
#define MAP_PRIVATE 2
#define MAP_FIXED 0x10
#define MAP_ANONYMOUS 0x20
#define MAP_ANON MAP_ANONYMOUS
#define MAP_NORESERVE 0x4000
#define MAP_POPULATE 0x8000
#define MAP_STACK 0x20000
#define MAP_FAILED ((void *)-1)

#define MS_ASYNC 1
#define MS_INVALIDATE 2
#define MS_SYNC 4
#define MCL_CURRENT 1
#define MCL_FUTURE 2

// (MADV_DONTNEED clears the pages that lie wholly in the range; any other wish is heard, and changes nothing)
#define MADV_NORMAL 0
#define MADV_RANDOM 1
#define MADV_SEQUENTIAL 2
#define MADV_WILLNEED 3
#define MADV_DONTNEED 4
#define MADV_FREE 8
#define MADV_HUGEPAGE 14
#define MADV_NOHUGEPAGE 15
#define POSIX_MADV_NORMAL 0
#define POSIX_MADV_RANDOM 1
#define POSIX_MADV_SEQUENTIAL 2
#define POSIX_MADV_WILLNEED 3
#define POSIX_MADV_DONTNEED 4

void *mmap(void *wish, size_t length, int protection, int flags, int file, off_t offset);
int munmap(void *address, size_t length);
int madvise(void *address, size_t length, int advice);
int posix_madvise(void *address, size_t length, int advice);

// 0 where the memory is to be read and written, as it is; else -1 and ENOTSUP.
int mprotect(void *address, size_t length, int protection);

// Memory stays where it is: 0.
int mlock(const void *address, size_t length);
int munlock(const void *address, size_t length);
int mlockall(int flags);
int munlockall(void);

void *mremap(void *address, size_t old, size_t length, int flags, ...) PREDATOR_NO_REMAP;
int msync(void *address, size_t length, int flags) PREDATOR_NO_FILE;
int shm_open(const char *name, int flags, mode_t mode) PREDATOR_NO_FILE;
int shm_unlink(const char *name) PREDATOR_NO_FILE;

#ifdef __cplusplus
}
#endif

#endif
