// Anonymous mappings and sbrk by all harts at once: whose bytes are whose, what is cleared, and what is refused.
//
//> rounds 80
//> grown 81920
#include "check.h"
#include <errno.h>
#include <sys/mman.h>
#include <unistd.h>

#define PAGE 4096u
#define ROUNDS 10
#define GROWS 1024

static _Atomic uint32_t rounds, grown;

static void is_clear(const unsigned char *bytes, size_t count)
{
    for (size_t i = 0; i < count; i += 512)
        CHECK(bytes[i] == 0 && bytes[i + 511] == 0);
}

static void *run(void *argument)
{
    unsigned char number = (unsigned char)((uintptr_t)argument + 1);
    for (size_t i = 0; i < ROUNDS; i++) {
        size_t size = PAGE * (1 + i % 3);
        unsigned char *map = mmap(NULL, size - 100, PROT_READ | PROT_WRITE, MAP_PRIVATE | MAP_ANONYMOUS, -1, 0);
        CHECK(map != MAP_FAILED && (uintptr_t)map % PAGE == 0);
        is_clear(map, size);
        for (size_t at = 0; at < size; at += 256)
            map[at] = number;
        unsigned char *more = sbrk(GROWS);
        CHECK(more != (void *)-1);
        is_clear(more, GROWS);
        more[0] = more[GROWS - 1] = number;
        grown += GROWS;
        sched_yield();
        for (size_t at = 0; at < size; at += 256)
            CHECK(map[at] == number);
        CHECK(more[0] == number && more[GROWS - 1] == number);
        CHECK(madvise(map, PAGE, MADV_DONTNEED) == 0);
        is_clear(map, PAGE);
        CHECK(munmap(map, size - 100) == 0);
        rounds++;
    }
    return argument;
}

int main(void)
{
    char *first = sbrk(0);
    CHECK((uintptr_t)first % PAGE == 0);
    on_all(run);
    show("rounds", rounds);
    show("grown", (uint32_t)((char *)sbrk(0) - first));
    CHECK(grown == HARTS * ROUNDS * GROWS);

    // What comes back to the end is clear, to the byte.
    CHECK(sbrk(-(ptrdiff_t)grown) == first + grown && sbrk(0) == first);
    CHECK(sbrk(7) == first && (first[6] = 1) == 1 && sbrk(-3) == first + 7 && sbrk(5) == first + 4);
    CHECK(first[4] == 0 && first[5] == 0 && first[6] == 0 && first[8] == 0);
    CHECK(sbrk(-10) == (void *)-1 && sbrk(1 << 30) == (void *)-1 && brk(first - 1) == -1 && brk(first) == 0);

    // A mapping whose parts are unmapped stays; one that is unmapped as a whole comes again.
    char *map = mmap(NULL, 3 * PAGE, PROT_NONE, MAP_SHARED | MAP_ANON, -1, 0);
    CHECK(map != MAP_FAILED && munmap(map + PAGE, PAGE) == 0 && munmap(map, PAGE) == 0);
    map[0] = map[PAGE] = map[2 * PAGE] = 1;
    char *other = mmap(NULL, 3 * PAGE, PROT_READ, MAP_PRIVATE | MAP_ANON, -1, 0);
    CHECK(other != MAP_FAILED && (other >= map + 3 * PAGE || other + 3 * PAGE <= map));
    CHECK(munmap(map, 3 * PAGE) == 0);
    CHECK(mmap(NULL, 3 * PAGE, PROT_READ, MAP_PRIVATE | MAP_ANON, -1, 0) == map && map[0] == 0 && map[2 * PAGE] == 0);
    CHECK(munmap(map < other ? map : other, (size_t)(map < other ? other - map : map - other) + 3 * PAGE) == 0);
    CHECK(mmap(NULL, 3 * PAGE, PROT_READ, MAP_PRIVATE | MAP_ANON, -1, 0) == (map < other ? map : other));
    CHECK(munmap(map + 1, PAGE) == -1 && munmap(map, 0) == -1);
    CHECK(mmap(NULL, 0, PROT_READ, MAP_PRIVATE | MAP_ANON, -1, 0) == MAP_FAILED);
    CHECK(mmap(NULL, 1, PROT_READ, MAP_ANON, -1, 0) == MAP_FAILED && errno == EINVAL);
    CHECK(mmap(NULL, 1, PROT_READ, MAP_PRIVATE, 3, 0) == MAP_FAILED && errno == ENODEV);
    CHECK(mmap(map, 1, PROT_READ, MAP_PRIVATE | MAP_ANON | MAP_FIXED, -1, 0) == MAP_FAILED && errno == ENOTSUP);
    CHECK(mmap(NULL, 1, PROT_EXEC, MAP_PRIVATE | MAP_ANON, -1, 0) == MAP_FAILED && errno == ENOTSUP);
    CHECK(mmap(NULL, SIZE_MAX - 1, PROT_READ, MAP_PRIVATE | MAP_ANON, -1, 0) == MAP_FAILED && errno == ENOMEM);
    CHECK(mmap(NULL, 1u << 30, PROT_READ, MAP_PRIVATE | MAP_ANON, -1, 0) == MAP_FAILED && errno == ENOMEM);
    CHECK(mprotect(map, PAGE, PROT_READ | PROT_WRITE) == 0 && mprotect(map, PAGE, PROT_NONE) == -1 && errno == ENOTSUP);
    CHECK(mlock(map, PAGE) == 0 && munlock(map, PAGE) == 0 && posix_madvise(map, PAGE, POSIX_MADV_DONTNEED) == 0);
    return 0;
}
