#!/usr/bin/env bash
# Builds guests for predator as guest/build.sh does those of the small kit, but the kit once for all: `guests.sh FOLDER --kit` puts its
# objects into the folder, and then `guests.sh FOLDER` reads lines `OUT.elf SOURCE.c FLAG ..`; several may run side by side.
set -eu
here=$(cd "$(dirname "$(readlink -f "$0")")/../../guest" && pwd)
self=guests.sh
# shellcheck source=../../guest/common.bash
. "$here/common.bash"
folder=$1
# (the arrays are of common.bash)
# shellcheck disable=SC2154
common=("${machine[@]}" -O2 -g "${sections[@]}" "${named[@]}" "${small[@]}" "${careful[@]}")
if [ "${2:-}" = --kit ]; then
    want_tools
    for it in start.S calls.c library.c; do
        clang "${common[@]}" -c "$here/$it" -o "$folder/kit-${it%.*}.o"
    done
    exit
fi
while read -r out source more; do
    read -ra flags <<<"$more"
    # (what is linked is no source, so the flags for a source don't count there)
    # shellcheck disable=SC2154
    run_link clang "${common[@]}" "${flags[@]}" -Wno-unused-command-line-argument "$folder"/kit-{start,calls,library}.o "$source" \
        "${linked[@]}" -Wl,-T,"$here/link.ld" -Wl,-z,max-page-size=16 -o "$out"
    judge "$out"
done
