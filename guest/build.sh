#!/usr/bin/env bash
# Builds C and C++ programs for predator, with symbols and full debug information.
#
#     build.sh OUT.elf SOURCE .. [-- FLAGS ..]     one program, with flags for the compiler behind --
#     build.sh examples                            the examples, into built/, with line tables
#     build.sh threads                             the tests of threads/, into threads/out/
#     build.sh studies [FOLDER]                    what studies/builds.txt lists, into built/studies/, without line tables; or into a
#                                                  folder that is there, with line tables
#
# A program that includes a header of the C library or pthread.h is linked with Debian's picolibc, where that is installed, and any other
# with the small kit alone; KIT=small and KIT=c say so for themselves. ARGUMENTS='4 in.txt "a b"' are the words that such a program's main
# gets, quoted as in a shell. STEP_TIME=1000 is how many nanoseconds a step takes by its clock, which is else 1. PAGE=4096 makes files that
# Linux can run too; without it they are as small as can be. PLAIN=yes leaves out the kit's extras: its notes for the report, its messages,
# and the room for other words of main. The studies are built so, since their addresses stand in the documents.
set -eu
here=$(cd "$(dirname "$(readlink -f "$0")")" && pwd)
self=build.sh
# shellcheck source=common.bash
. "$here/common.bash"
page=${PAGE:-16}
# How much is kept for debuggers, and whether the kit's parts have its extras.
debug=(-g)
extras=(-DPREDATOR_EXTRAS)
[ -z "${PLAIN:-}" ] || extras=()
work=

usage() {
    sed -n '2,/^[^#]/s/^# \{0,1\}//p' "$0" >&2
    exit 1
}

flags_of_all() {
    common=("${machine[@]}" -O2 "${debug[@]}" "${sections[@]}" "${named[@]}")
}

# Which kit a program wants: `small`, `threads` for the small one and pthread.h, or `c`. The small one's headers are tried, and those
# that it lacks decide.
kit_of() {
    local seen lacks it
    if [ -n "${KIT:-}" ]; then
        echo "$KIT"
        return
    fi
    seen=$(clang "${common[@]}" "${small[@]}" "${flags[@]}" -M -MG "${sources[@]}" | tr -s " \\\\" '\n')
    lacks=$(grep -v / <<<"$seen" | grep -E '\.h$|^sys/' || true)
    if [ -n "$(library_set)" ]; then
        for it in $lacks; do
            [ -f "$picolibc/include/$it" ] && echo c && return
        done
        grep -q "^$here/include/" <<<"$seen" && echo c && return
    elif grep -q -x -E '(stdio|stdlib|string|errno|assert|math|time|ctype|inttypes)\.h' <<<"$lacks"; then
        fail "the program wants a C library (Debian: picolibc-riscv64-unknown-elf), and there is none"
    fi
    grep -q "^$here/include/" <<<"$seen" && echo threads && return
    echo small
}

# FILES -- FLAGS: compiles each file to an object of $made, and names them in `objects`.
compile() {
    local files=() it
    while [ "$1" != -- ]; do
        files+=("$1")
        shift
    done
    shift
    objects=()
    for it in "${files[@]}"; do
        objects+=("$made/$((++count)).o")
        clang "${common[@]}" "$@" -c "$it" -o "${objects[-1]}"
    done
}

# Makes the kit for programs with a C library, once a call.
want_kit() {
    want_library
    [ -d "$work/kit" ] || make_kit "$work/kit" "${debug[@]}" "${extras[@]}"
}

# OUT: a program that has C++ among its `sources`, with its `flags`: C by cc, C++ and the whole by c++.
build_cxx() {
    local out=$1 it of=() made
    made=$(mktemp -d -p "$work")
    for it in "${sources[@]}"; do
        if [[ $it == *.c ]]; then
            of+=("$made/${#of[@]}.o")
            "$here/cc" ${flags[@]+"${flags[@]}"} -c "$it" -o "${of[-1]}"
        else
            of+=("$it")
        fi
    done
    "$here/c++" ${flags[@]+"${flags[@]}"} "${of[@]}" -o "$out"
}

# OUT, then sources, then -- and flags.
build() {
    local out=$1 sources=() flags=() objects own kit count=0 made common tail=() it
    shift
    while (($# > 0)) && [ "$1" != -- ]; do
        sources+=("$1")
        shift
    done
    (($# > 0)) && shift
    flags=("$@")
    for it in "${sources[@]}"; do
        if [[ $it == *.@(cpp|cc|cxx|c++|C) ]]; then
            build_cxx "$out"
            return
        fi
    done
    flags_of_all
    kit=$(kit_of)
    made=$(mktemp -d -p "$work")
    local kept=() parts=("$here/start.S" "$here/calls.c" "$here/library.c")
    if [ "$kit" = c ]; then
        want_kit
        local system=$work/kit/parts/system.o
        part_words "${ARGUMENTS:-}"
        if ((${#words[@]} > 0)); then
            system=$made/system.o
            make_part "$here/clib/system.c" "$system" "${debug[@]}" "${extras[@]}"
        fi
        compile "${sources[@]}" -- -std=gnu11 "${over_c[@]}" "${flags[@]}"
        behind "$work/kit" "$system"
        objects=("$work/kit/start.o" "${objects[@]}" "${tail[@]}")
    else
        if [ "$kit" = threads ]; then
            parts+=("$here/pthread.c" "$here/clib/c11.c" "$here/clib/missing.c")
            kept=(-DPREDATOR_THREADS "${extras[@]}")
        fi
        compile "${parts[@]}" -- "${small[@]}" "${careful[@]}" "${kept[@]}"
        own=("${objects[@]}")
        if [ "$kit" = threads ]; then
            # (which a program has if it destroys a barrier)
            compile "$here/clib/barriers.c" -- "${small[@]}" "${careful[@]}" "${kept[@]}"
            own+=(-Wl,--start-lib "${objects[@]}" -Wl,--end-lib)
        fi
        compile "${sources[@]}" -- "${small[@]}" "${careful[@]}" "${flags[@]}"
        objects=("${own[@]}" "${objects[@]}")
    fi
    run_link clang "${machine[@]}" "${linked[@]}" -Wl,-T,"$here/link.ld" -Wl,-z,max-page-size="$page" "${objects[@]}" -o "$out"
    rm -rf "$made"
    judge "$out"
}

# The one example that GNU's linker lays out by itself, where there is one: Debian's package binutils-riscv64-unknown-elf.
build_linked() {
    local common
    if ! command -v riscv64-unknown-elf-ld >/dev/null; then
        echo "build.sh: there is no riscv64-unknown-elf-ld, so built/linked.elf stays as it is" >&2
        return 0
    fi
    flags_of_all
    clang "${common[@]}" "${small[@]}" "${careful[@]}" -g0 -Os -c "$here/examples/linked.c" -o "$1.o"
    riscv64-unknown-elf-ld -m elf32lriscv -static --strip-debug "$1.o" -o "$1"
    rm "$1.o"
    judge "$1"
}

# What studies/builds.txt lists, as many at a time as there are processors. With a folder they go there, with line tables.
build_studies() {
    local name source flags children=() failed=0 into=${1:-}
    debug=(-gline-tables-only)
    if [ -z "$into" ]; then
        into=$here/built/studies
        mkdir -p "$into"
        rm -f "$into/"*.elf
        debug=(-g0)
    fi
    into=$(readlink -e "$into")
    cd "$here/.."
    here=guest
    extras=()
    want_kit
    while read -r name source flags; do
        [[ -n $name && $name != "#" ]] || continue
        # (the flags are words)
        # shellcheck disable=SC2086
        (
            trap - EXIT
            KIT=c build "$into/$name.elf" "$here/studies/$source" -- "${careful[@]}" $flags
            [ "${debug[*]}" != -g0 ] || llvm-objcopy --strip-debug "$into/$name.elf"
        ) &
        children+=($!)
        if ((${#children[@]} == $(nproc))); then
            await
        fi
    done <"$here/studies/builds.txt"
    await
    return "$failed"
}

# Waits for each of `children`, and says in `failed` whether one failed.
await() {
    local it
    for it in ${children[@]+"${children[@]}"}; do
        wait "$it" || failed=1
    done
    children=()
}

want_tools
work=$(mktemp -d)
trap 'rm -rf "$work"' EXIT
if (($# == 1)) && [ "$1" = examples ]; then
    mkdir -p "$here/built"
    # Line tables name files from the folder above guest/ on, wherever that is. The documents name the examples' addresses, so they have
    # the kit without its extras.
    cd "$here/.."
    here=guest
    debug=(-gline-tables-only)
    extras=()
    for name in counters apart tallies waits checksum queue words; do
        KIT=small build "$here/built/$name.elf" "$here/examples/$name.c"
    done
    for name in as_is atomics; do
        if [ -n "$(library_set)" ]; then
            KIT=c build "$here/built/$name.elf" "$here/examples/$name.c"
        else
            echo "build.sh: there is no picolibc, so built/$name.elf stays as it is" >&2
        fi
    done
    build_linked "$here/built/linked.elf"
elif (($# == 1)) && [ "$1" = threads ]; then
    mkdir -p "$here/threads/out"
    for source in "$here"/threads/*.c; do
        build "$here/threads/out/$(basename "$source" .c).elf" "$source"
    done
elif (($# == 1)) && [ "$1" = studies ]; then
    build_studies
elif (($# == 2)) && [ "$1" = studies ] && [ -d "$2" ]; then
    build_studies "$2"
elif (($# >= 2)) && [[ $1 != *.@(c|cpp|cc|cxx) && $1 != -* && $2 != -- ]]; then
    build "$@"
else
    usage
fi
