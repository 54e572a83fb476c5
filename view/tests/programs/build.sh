#!/usr/bin/env bash
# Builds the programs of this folder as they are kept in it; `repaired` is each with what the first screen of `predator view` says to do.
# The kit is copied to a folder whose name says nothing of this machine, since debug information has it.
set -eu
cd "$(dirname "$(readlink -f "$0")")"
kit=/tmp/predator
mkdir "$kit"
trap 'rm -rf "$kit"' EXIT
cp -r ../../../guest "$kit/guest"
make() {
    local out=$1
    shift
    "$kit/guest/build.sh" "$out" "$@" -fdebug-prefix-map="$PWD"=.
}
for it in ring arena shards anderson flags pieces; do
    make "$it.elf" "$it.c" --
    make "$it-repaired.elf" "$it.c" -- -DREPAIRED
done
make apart.elf apart.c --
make odd.elf odd.c -- -gdwarf-4
