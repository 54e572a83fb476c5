#!/usr/bin/env bash
# Tries the guest kit in a folder of its own, by the parts in kit/: what must build, what must be refused and with which reason, that the
# examples are built as they stand in built/, and, where the built program is there, what programs do that were built so. It builds no
# program of the repository, and is no part of the gate.
#
#     kit.sh        PREDATOR names another program than crates/predator/out/predator, and OTHER_LIBCXX folders with the headers of other
#                   versions of LLVM's C++ library, which are tried too
#
# Its last line is `N passed, M failed, K skipped`, and it ends with 0 exactly where M is 0.
set -u
here=$(cd "$(dirname "$(readlink -f "$0")")" && pwd)
build=$here/build.sh
cc=$here/cc
cxx=$here/c++
predator=${PREDATOR:-$here/../crates/predator/out/predator}
export GLIBC_TUNABLES=${GLIBC_TUNABLES:-glibc.malloc.hugetlb=1}
work=$(mktemp -d)
trap 'rm -rf "$work"' EXIT
cd "$work" || exit 1
export XDG_CACHE_HOME=$work/cache
unset KIT ARGUMENTS PAGE PICOLIBC PLAIN
# shellcheck source=../tools/checks.bash
. "$here/../tools/checks.bash"

# builds WHAT COMMAND ..: the command ends with 0 and says nothing. What it printed stands in `out`.
builds() {
    local what=$1
    shift
    if "$@" >out 2>err </dev/null && [ ! -s err ]; then pass_check; else fail_check "$what: not built, or not silently" err; fi
}

# refuses WHAT REASON COMMAND ..: the command fails, and says the reason, a fixed text.
refuses() {
    local what=$1 reason=$2
    shift 2
    if "$@" >out 2>err </dev/null; then
        fail_check "$what: not refused"
    elif grep -q -F -e "$reason" err; then
        pass_check
    else
        fail_check "$what: refused, and not by '$reason'" err
    fi
}

# What is loaded of a program, its segments, and its symbols that have a name.
loaded() {
    llvm-readelf -lW "$1" && llvm-readelf -sW "$1" | awk 'NF == 8 { $1 = ""; print }' &&
        llvm-objcopy --strip-all "$1" "$work/stripped" && sha256sum <"$work/stripped"
}
same() { [ "$(loaded "$1")" = "$(loaded "$2")" ]; }

for tool in clang ld.lld llvm-readelf llvm-objcopy llvm-dwarfdump llvm-ar llvm-strings llvm-symbolizer; do
    if ! command -v "$tool" >/dev/null; then
        skip_checks 1 "all of it wants $tool (Debian: clang, lld, llvm)"
        echo "0 passed, 0 failed, 1 skipped"
        exit 0
    fi
done
has_library=
[ -d /usr/lib/picolibc/riscv64-unknown-elf ] && has_library=1

. "$here/kit/built.sh"
. "$here/kit/small.sh"

if [ -z "$has_library" ]; then
    skip_checks 1 "what is built over the C library wants picolibc (Debian: picolibc-riscv64-unknown-elf)"
    finish_checks
    exit
fi

. "$here/kit/refused.sh"
. "$here/kit/driver.sh"
. "$here/kit/cxx.sh"
. "$here/kit/runs.sh"

finish_checks
