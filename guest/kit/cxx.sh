# shellcheck shell=bash
# Part of kit.sh, which reads it: guest/c++ as a compiler, and CMake with both.
#
# (kit.sh sets the names that aren't set here)
# shellcheck disable=SC2154

cat >plus.cc <<'C'
#include <pthread.h>
#include <stdio.h>
#include <stdlib.h>
struct base {
    virtual int get() = 0;
    virtual ~base() { puts("gone"); }
};
struct own : base {
    int value;
    own(int value) : value(value) {}
    int get() override { return value; }
};
template <typename T> static T *make(int value) { return new T(value); }
static int times;
static own &once() { static own it(++times); return it; }
static own early(7);
static void *run(void *) { return reinterpret_cast<void *>(static_cast<long>(once().get())); }
int main()
{
    base *it = make<own>(4);
    auto more = [&](int x) { return x + it->get(); };
    pthread_t threads[7];
    for (auto &thread : threads) pthread_create(&thread, nullptr, run, nullptr);
    for (auto &thread : threads) pthread_join(thread, nullptr);
    int *array = new int[10]();
    printf("%d %d %d %d\n", more(1), early.get(), times, array[9]);
    delete[] array;
    delete it;
}
C
builds "C++" "$cxx" -std=c++17 -Wall -Wextra -Werror plus.cc -o plus.elf
builds "C++ by parts" bash -c '"$0" -c plus.cc -o plus.o && "$0" plus.o -o parts.elf' "$cxx"
builds "C++ through a link" ./linked-c++ plus.cc -o plus2.elf
echo 'int main() { throw 1; }' >throws.cc
refuses "an exception" "throws.cc:1:14: error: a guest has no exceptions: 'throw'" "$cxx" throws.cc -o x.elf
refuses "an exception that is insisted on" "can't be had: a guest has no exceptions" "$cxx" -fexceptions throws.cc -o x.elf
printf 'struct a { virtual ~a() {} }; struct b : a {};\nint main() { a *it = new b; return dynamic_cast<b *>(it) == nullptr; }\n' >casts.cc
refuses "type information" "-frtti" "$cxx" casts.cc -o x.elf
refuses "type information without LLVM's library" "can't be had: type information needs" env LIBCXX=none "$cxx" -frtti casts.cc -o x.elf
cat >place.cc <<'C'
#include <new>
struct a { int x; a(int x) : x(x) {} };
alignas(a) static char room[sizeof(a)];
int main() { a *it = new (room) a(3), *other = new (std::nothrow) a(4); int sum = it->x + other->x; it->~a(); delete other; return sum; }
C
for it in c++98 c++11 c++17; do
    sed "s/$([ $it = c++98 ] && echo 'alignas(a) ' || echo '^$')//" place.cc >place2.cc
    builds "new at a place, $it" "$cxx" -std=$it -Wall -Wextra -Werror place2.cc -o place.elf
done

# ---- C++ without the headers of LLVM's library, and which of them are taken

echo '#include <vector>' >vector.cc
refuses "C++'s library, where it isn't installed" "Debian: libc++-14-dev" env LIBCXX=none "$cxx" -c vector.cc
refuses "C++'s library, where it isn't installed, by build.sh" "Debian: libc++-14-dev" env LIBCXX=none "$build" x.elf vector.cc
builds "C++ without its library" env LIBCXX=none "$cxx" -std=c++17 -Wall -Wextra -Werror plus.cc -o bare.elf
builds "C++ without its library, by build.sh" env LIBCXX=none "$build" bare2.elf plus.cc
builds "C where C++'s library isn't installed" env LIBCXX=none "$cc" main.c add.c -o c.elf

# headers_are WHAT [VERSION]: what a compiler of version 14 takes of the folders in llvm/.
headers_are() {
    local what=$1 wanted=${2:+llvm/llvm-$2/include/c++/v1}
    expect_equal "$what" "$wanted" "$(bash -c 'unset LIBCXX; self=kit.sh here=$1; . "$here/common.bash"; clang() { echo 14.0.6; }; cxx_headers llvm' all "$here")"
}
add_headers() {
    mkdir -p "llvm/llvm-$1/include/c++/v1"
    : >"llvm/llvm-$1/include/c++/v1/__config"
}
headers_are "no headers"
add_headers 19
headers_are "headers of a version that is too new"
add_headers 15
headers_are "headers of another version" 15
add_headers 16
headers_are "headers of two other versions" 16
add_headers 14
headers_are "headers of the compiler's version" 14

# A version that needs a newer compiler, as its own header says, and no headers at all.
echo '#  define _LIBCPP_VERSION 190107' >llvm/llvm-19/include/c++/v1/__config
mkdir llvm/llvm-19/include/c++/v1/__configuration
echo '#      warning "Libc++ only supports Clang 99 and later"' >llvm/llvm-19/include/c++/v1/__configuration/compiler.h
refuses "headers of a newer version" "has version 19 of LLVM's C++ library, which needs clang 99 or later, and this is clang $(clang -dumpversion | sed 's/[.].*//'): guests take 14, 15 or 16 (Debian: libc++-14-dev)" \
    env LIBCXX=llvm/llvm-19/include/c++/v1 "$cxx" -c vector.cc
refuses "a folder without headers" "has no headers of LLVM's C++ library" env LIBCXX="$work" "$build" x.elf vector.cc

# ---- C++ with them

library=$(bash -c 'self=kit.sh here=$1; . "$here/common.bash"; cxx_headers /usr/lib' all "$here")
if [ -n "$library" ]; then
    builds "type information that is asked for" "$cxx" -frtti casts.cc -o casts.elf
    printf '#include <iostream>\nint main() { std::cout << 1; }\n' >streams.cc
    refuses "streams" "use printf" "$cxx" -c streams.cc
    refuses "streams, by build.sh" "use printf" "$build" x.elf streams.cc
    echo 'int main() { try { return 1; } catch (...) { return 2; } }' >tries.cc
    refuses "a handler of exceptions" "tries.cc:1:14: error: a guest has no exceptions: 'try'" "$cxx" -c tries.cc
    refuses "an exception, by build.sh" "throws.cc:1:14: error: a guest has no exceptions: 'throw'" "$build" x.elf throws.cc
    printf '#include <vector>\nint main() { return std::vector<int>(3).size() - 3; }\n' >sized.cpp
    builds "C++ by build.sh" "$build" sized.elf sized.cpp
    cat >hello.cpp <<'C'
#include <cstdio>
#include <thread>
int main()
{
    std::thread first([] { std::printf("hello from %d\n", 1); }), second([] { std::puts("hello from 2"); });
    first.join();
    second.join();
}
C
    builds "two threads of C++ without debug information" "$build" hello.elf hello.cpp -- -g0
    size=$(stat -c %s hello.elf)
    if ((size < 40000)); then pass_check; else fail_check "two threads of C++ take $size bytes"; fi
    expect_equal "debug information of two threads" "" "$(llvm-readelf -S hello.elf | grep -o '[.]debug[^ ]*')"
    echo 'int twice(int class) { return 2 * class; }' >half.c
    printf 'extern "C" int twice(int);\nint main() { return twice(2) - 4; }\n' >other.cpp
    builds "C and C++ together" "$build" mixed.elf other.cpp half.c
    refuses "an error in C among C++" "wrong.c:1:25: error: use of undeclared identifier 'one'" "$build" x.elf other.cpp wrong.c
    cat >crowd.cpp <<'C'
#include <mutex>
#include <thread>
#include <vector>
int main()
{
    std::mutex gate;
    std::vector<std::thread> threads;
    gate.lock();
    for (int i = 0; i < 300; i++)
        threads.emplace_back([&] { std::lock_guard<std::mutex> guard(gate); });
}
C
    builds "300 threads of C++" "$build" crowd.elf crowd.cpp
    for it in /usr/lib/llvm-1[4-6]/include/c++/v1 ${OTHER_LIBCXX:-}; do
        [ -e "$it" ] && [ "$it" != "$library" ] || continue
        builds "C++ with the headers of $it" env LIBCXX="$it" "$cxx" -Wall -Wextra -Werror sized.cpp -o "sized-$(basename "${it%/include/*}").elf"
    done
else
    skip_checks 12 "what has C++'s library wants its headers (Debian: libc++-14-dev)"
fi

# ---- CMake

if command -v cmake >/dev/null && command -v make >/dev/null; then
    mkdir project
    cp main.c add.c plus.cc project
    cat >project/CMakeLists.txt <<'C'
cmake_minimum_required(VERSION 3.13)
project(tried C CXX)
find_package(Threads REQUIRED)
include(CheckFunctionExists)
check_function_exists(pthread_create HAS_PTHREAD)
check_function_exists(fork HAS_FORK)
if(NOT HAS_PTHREAD OR HAS_FORK)
    message(FATAL_ERROR "pthread_create is there, and fork isn't")
endif()
add_library(often add.c)
add_executable(tried main.c)
target_link_libraries(tried often Threads::Threads m)
add_executable(plus plus.cc)
target_link_libraries(plus Threads::Threads)
C
    expect_success "CMake's first step" cmake -S project -B cmake -DCMAKE_TOOLCHAIN_FILE="$here/toolchain.cmake"
    expect_success "CMake's second step" cmake --build cmake
    expect_success "what CMake built" llvm-readelf -h cmake/tried cmake/plus
else
    skip_checks 3 "CMake isn't there (Debian: cmake, make)"
fi
