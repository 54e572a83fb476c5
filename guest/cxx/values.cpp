// What is left of the C++ library's own functions: counted owners, waits for atomic variables, clocks, numbers and texts.
#include <atomic>
#include <cerrno>
#include <charconv>
#include <chrono>
#include <cstdio>
#include <memory>
#include <string>
#include <unordered_map>

#include "aborts.h"
#include "../predator.h"

_LIBCPP_BEGIN_NAMESPACE_STD

// ---- Counted owners: the count of a live object is one less than that of its owners

__shared_count::~__shared_count() {}
__shared_weak_count::~__shared_weak_count() {}
void __shared_weak_count::__release_weak() noexcept
{
    if (__atomic_fetch_sub(&__shared_weak_owners_, 1, __ATOMIC_ACQ_REL) == 0)
        __on_zero_shared_weak();
}
__shared_weak_count *__shared_weak_count::lock() noexcept
{
    long *owners = &__shared_owners_;
    long seen = __atomic_load_n(owners, __ATOMIC_SEQ_CST);
    while (seen != -1)
        if (__atomic_compare_exchange_n(owners, &seen, seen + 1, false, __ATOMIC_SEQ_CST, __ATOMIC_SEQ_CST))
            return this;
    return nullptr;
}
const void *__shared_weak_count::__get_deleter(const type_info &) const noexcept { return nullptr; }
void *align(size_t alignment, size_t size, void *&from, size_t &room)
{
    size_t skipped = -reinterpret_cast<uintptr_t>(from) % alignment;
    if (room < size || room - size < skipped)
        return nullptr;
    room -= skipped;
    return from = static_cast<char *>(from) + skipped;
}

// ---- Waits for atomic variables: each variable has one of some counters, by its address. A change counts, and who waits looks anew.

struct alignas(64) Changes {
    atomic<uint32_t> count;
};
static auto *changes_of(const volatile void *variable)
{
    static Changes changes[16];
    uintptr_t at = reinterpret_cast<uintptr_t>(variable) / 4;
    return &changes[(at ^ at / 16) % 16].count;
}
static void notify(const volatile void *variable)
{
    auto *count = changes_of(variable);
    count->fetch_add(1);
    predator_wake(reinterpret_cast<volatile uint32_t *>(count), 0xffffffff);
}

// (variables share counters, so all that wait are woken)
#define ATOMIC_WAITS(type)                                                                                                               \
    void __cxx_atomic_notify_one(const volatile type *variable) { notify(variable); }                                                    \
    void __cxx_atomic_notify_all(const volatile type *variable) { notify(variable); }                                                    \
    __cxx_contention_t __libcpp_atomic_monitor(const volatile type *variable) { return changes_of(variable)->load(); }                  \
    void __libcpp_atomic_wait(const volatile type *variable, __cxx_contention_t seen)                                                    \
    {                                                                                                                                    \
        predator_wait(reinterpret_cast<volatile uint32_t *>(changes_of(variable)), (uint32_t)seen);                                      \
    }

ATOMIC_WAITS(void)
ATOMIC_WAITS(__cxx_atomic_contention_t)

// ---- Clocks

namespace chrono {
static nanoseconds read_clock(clockid_t clock)
{
    timespec now;
    clock_gettime(clock, &now);
    return seconds(now.tv_sec) + nanoseconds(now.tv_nsec);
}
steady_clock::time_point steady_clock::now() noexcept { return time_point(read_clock(CLOCK_MONOTONIC)); }
system_clock::time_point system_clock::now() noexcept { return time_point(duration_cast<duration>(read_clock(CLOCK_REALTIME))); }
time_t system_clock::to_time_t(const time_point &time) noexcept { return duration_cast<seconds>(time.time_since_epoch()).count(); }
system_clock::time_point system_clock::from_time_t(time_t time) noexcept { return time_point(seconds(time)); }
}

// ---- Numbers: how many buckets a table takes

static bool is_prime(size_t number)
{
    size_t by = 2;
    while (by <= number / by && number % by != 0)
        by++;
    return by > number / by;
}
size_t __next_prime(size_t least)
{
    while (!is_prime(least))
        least++;
    return least;
}

// ---- Texts

namespace __itoa {
char *__u64toa(uint64_t value, char *text) noexcept
{
    if (value >= 10)
        text = __u64toa(value / 10, text);
    *text = '0' + value % 10;
    return text + 1;
}
char *__u32toa(uint32_t value, char *text) noexcept { return __u64toa(value, text); }
}

template <class Value, class Wide, class... Base>
static Value parse(const char *name, Wide (*read)(const char *, char **, Base...), const string &text, size_t *end, Base... base)
{
    char *behind = nullptr;
    int before = exchange(errno, 0);
    Wide value = read(text.c_str(), &behind, base...);
    int error = exchange(errno, before);
    if (behind == text.c_str())
        predator_ends(name, ": no conversion");
    if (error == ERANGE || (is_integral<Value>::value && (Wide)(Value)value != value))
        predator_ends(name, ": out of range");
    if (end)
        *end = behind - text.c_str();
    return (Value)value;
}
#define WHOLE(type, name, read) type name(const string &text, size_t *end, int base) { return parse<type>(#name, read, text, end, base); }
#define FRACTION(type, name, read) type name(const string &text, size_t *end) { return parse<type>(#name, read, text, end); }
WHOLE(int, stoi, strtol)
WHOLE(long, stol, strtol)
WHOLE(long long, stoll, strtoll)
WHOLE(unsigned long, stoul, strtoul)
WHOLE(unsigned long long, stoull, strtoull)
FRACTION(float, stof, strtof)
FRACTION(double, stod, strtod)
FRACTION(long double, stold, strtod)

template <class Value> static string print(const char *format, Value value)
{
    char text[340];
    snprintf(text, sizeof text, format, value);
    return text;
}
#define TO_STRING(type, format) string to_string(type value) { return print(format, value); }
TO_STRING(int, "%d")
TO_STRING(unsigned, "%u")
TO_STRING(long, "%ld")
TO_STRING(unsigned long, "%lu")
TO_STRING(long long, "%lld")
TO_STRING(unsigned long long, "%llu")
TO_STRING(double, "%f")
string to_string(float value) { return to_string((double)value); }
string to_string(long double value) { return to_string((double)value); }

_LIBCPP_END_NAMESPACE_STD
