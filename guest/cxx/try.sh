#!/usr/bin/env bash
# Tries C++ guests with LLVM's headers of the library: each header compiles, each program of tries/ prints under several schedules what it
# prints on this machine by its own compiler and library, and what would be thrown ends a program with its text.
#
#     try.sh [--seeds N]       so many schedules, 5 without it; with fewer the headers are compiled for C++20 alone
#
# PREDATOR names another program than bin/predator. What isn't installed is skipped: the status is 77 where that is all of it.
set -u
here=$(cd "$(dirname "$(readlink -f "$0")")" && pwd)
top=$here/../..
predator=${PREDATOR:-$top/bin/predator}
seeds=5
[ "${1:-}" != --seeds ] || seeds=$2
for it in clang ld.lld llvm-readelf llvm-objcopy; do
    command -v "$it" >/dev/null || { echo "$it isn't installed (Debian: clang lld llvm)" && exit 77; }
done
# shellcheck source=../common.bash
here=$top/guest self=try.sh . "$top/guest/common.bash"
[ -n "$(cxx_headers /usr/lib)" ] || { echo "libc++ isn't installed (Debian: libc++-14-dev)" && exit 77; }
work=$(mktemp -d)
trap 'rm -rf "$work"' EXIT
cd "$work" || exit 1
# shellcheck source=../../tools/checks.bash
. "$top/tools/checks.bash"
tries=$top/guest/cxx/tries
cxx=$top/guest/c++

headers="algorithm any array atomic barrier bit bitset charconv chrono compare complex concepts condition_variable cstdint cstdio cstdlib
    cstring deque exception forward_list functional future initializer_list iterator latch limits list map memory mutex new numbers
    numeric optional queue random ratio semaphore set shared_mutex span stack stdexcept string string_view system_error thread tuple
    type_traits typeinfo unordered_map unordered_set utility variant vector"
standards=(c++20)
((seeds < 5)) || standards+=(c++17)
for standard in "${standards[@]}"; do
    for it in $headers; do
        printf '#include <%s>\nint main() { return 0; }\n' "$it" >header.cpp
        expect_status "<$it> in $standard" 0 "$cxx" -std="$standard" -Wall -Wextra -Werror -fsyntax-only header.cpp
    done
done
for it in iostream sstream fstream iomanip locale regex filesystem; do
    printf '#include <%s>\nint main() { return 0; }\n' "$it" >header.cpp
    expect_status "<$it>" 1 "$cxx" -fsyntax-only header.cpp
    expect_in_file "<$it>" err "not supported in guests"
done

for source in "$tries"/*.cpp; do
    name=$(basename "$source" .cpp)
    [ "$name" != ends ] || continue
    expect_status "$name for this machine" 0 g++ -std=c++20 -O1 -pthread "$source" -o host
    expect_status "$name: what it prints here" 0 ./host
    cp out expected
    flags=(-Wall -Wextra -Werror)
    [ "$name" != types ] || flags+=(-frtti)
    expect_status "$name as a guest" 0 "$cxx" "${flags[@]}" "$source" -o "$name.elf"
    for ((seed = 0; seed < seeds; seed++)); do
        for quantum in 3 100; do
            expect_status "$name at seed $seed, quantum $quantum" 0 "$predator" run "$name.elf" --set "quantum=$quantum,seed=$seed" --output printed
            expect_line "$name at seed $seed, quantum $quantum" "outcome exit 0"
            expect_status "$name at seed $seed, quantum $quantum: what it prints" 0 cmp printed expected
        done
    done
done

expect_status "ends" 0 "$cxx" -frtti "$tries/ends.cpp" -o ends.elf
while read -r which text; do
    expect_status "ends $which" 0 "$top/guest/words.py" ends.elf one.elf "$which"
    expect_status "ends $which" 0 "$predator" run one.elf --output printed
    expect_line "ends $which" "outcome exit 134"
    expect_equal "ends $which" "$text" "$(cat printed)"
done <<'T'
0 vector
1 bad_optional_access
2 bad_variant_access
3 std::bad_function_call
4 std::future_error
5 bad_weak_ptr
6 stoi: no conversion
7 vector
8 bad_any_cast
9 basic_string
a terminate: a thread was neither joined nor detached
b std::bad_cast
c std::bad_typeid
T
finish_checks
