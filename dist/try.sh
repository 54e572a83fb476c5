#!/usr/bin/env bash
# Tries the release: what bin/predator makes of dist/ in checkouts of many kinds, bin/dist, bin/install and bin/release. No kit is used: where a
# try builds, a stand-in for the prover copies a file. Its last line is `N passed, M failed, K skipped`. Where dist/ is of other sources it is skipped.
set -u
top=$(cd "$(dirname "$(readlink -f "$0")")/.." && pwd)
. "$top/bin/sources.bash"
[ "$(manifest sources)" = "$(sources "$top")" ] || { echo "dist/ is of other sources"; exit 77; }
unset PREDATOR_PROGRAM PREDATOR_BUILD PREDATOR_TRY XDG_CACHE_HOME
work=$(mktemp -d)
trap 'chmod -R u+w "$work"; rm -rf "$work"' EXIT
cd "$work" || exit 1
# shellcheck source=../tools/checks.bash
. "$top/tools/checks.bash"
export PATH=/usr/bin:/bin HOME=$work/home
mkdir "$HOME"

# fresh NAME: a checkout without git and without anything built.
fresh() {
    mkdir "$1"
    (cd "$top" && tar -c --exclude=out --exclude=.git --exclude=__pycache__ --exclude=fetched --exclude='*.campaign' .) | tar -x -C "$1"
}

# As an ordinary user, also where this is root.
plainly() {
    if [ "$UID" = 0 ]; then setpriv --reuid=65534 --regid=65534 --clear-groups "$@"; else "$@"; fi
}

chmod 755 "$work"
fresh one
program=guest/built/counters.elf

try_first_call() {
    local began
    began=$(date +%s%N)
    expect_status "the first report" 0 one/bin/predator run one/$program
    expect_in_file "the first report" out "line observed 0x00011000 64 start 41 count 4007 verdict mixed"
    if (($(date +%s%N) - began < 5000000000)); then pass_check; else fail_check "the first report took more than 5 s"; fi
    expect_status "a later call" 0 one/bin/predator check one/$program
    expect_status "the version" 0 one/bin/predator --version
    expect_in_file "the version" out "predator $(cat "$top/VERSION"), kit $(manifest kit)"
    expect_in_file "the version" out "program $(manifest program), came with the release"
    expect_status "what was unpacked" 0 cmp one/crates/predator/out/predator <(gzip -dc "$top/dist/predator.gz")
    expect_status "building nothing" 0 env PREDATOR_BUILD=no one/bin/predator check one/$program
}

try_places() {
    fresh sealed
    chmod -R a-w sealed
    mkdir -m 1777 tmp
    expect_status "a read-only checkout" 0 plainly env -u HOME TMPDIR="$work/tmp" sealed/bin/predator check sealed/$program
    expect_status "a read-only checkout with no folder at all" 126 plainly env HOME=/nonexistent TMPDIR=/nonexistent sealed/bin/predator check sealed/$program
    expect_in_file "no folder" err "set XDG_CACHE_HOME"
    mkdir -m 777 cache
    expect_status "a cache that is another user's" 126 plainly env XDG_CACHE_HOME="$work/cache" HOME=/nonexistent TMPDIR=/nonexistent sealed/bin/predator check sealed/$program
    fresh two
    two/bin/predator run two/$program >first 2>&1 &
    two/bin/predator run two/$program >second 2>&1
    wait
    expect_status "two first calls at once" 0 cmp first second
    expect_in_file "two first calls at once" first "count 4007"
}

try_damage() {
    fresh cut
    head -c 1000 "$top/dist/predator.gz" >cut/dist/predator.gz
    expect_status "a cut program" 126 cut/bin/predator check cut/$program
    expect_in_file "a cut program" err "it was cut or changed"
    (gzip -dc "$top/dist/predator.gz" | head -c 100000; echo) | gzip -n >cut/dist/predator.gz
    expect_status "a changed program" 126 cut/bin/predator check cut/$program
    expect_in_file "a changed program" err "git checkout dist"
    echo "-- more" >>cut/crates/base/specs/Lib.antt
    expect_status "changed sources, and no kit" 127 cut/bin/predator check cut/$program
    expect_in_file "changed sources, and no kit" err "these sources aren't those of dist/"
    expect_status "changed sources, where nothing is built" 127 env PREDATOR_BUILD=no cut/bin/predator check cut/$program
    rm cut/dist/manifest
    expect_status "no manifest" 127 cut/bin/predator check cut/$program
    expect_status "another processor" 126 env HOSTTYPE=aarch64 one/bin/predator check one/$program
    expect_in_file "another processor" err "this is aarch64"
}

try_proving() {
    fresh proof
    mkdir kit
    # (in place of the prover and of the kit's own command)
    printf '#!/bin/sh\nmkdir -p "$2/built"\ncp -R "$1/crates" "$1/crates.txt" "$2/"\ncp "$BUILT" "$2/predator"\nchmod 755 "$2/predator"\n' >proof/bin/build.py
    printf '#!/bin/sh\necho "%s"\n' "$(manifest kit)" >kit/rt
    chmod 755 proof/bin/build.py kit/rt
    export BUILT=$work/one/crates/predator/out/predator
    expect_status "no kit to prove with" 127 proof/bin/predator --prove
    expect_status "proved" 0 env PATH="$work/kit:$PATH" proof/bin/predator --prove
    expect_in_file "proved" out "proved: these bytes"
    expect_status "the version of what was proved" 0 proof/bin/predator --version
    expect_in_file "the version of what was proved" out "$(manifest program), proved here"
    cp "$BUILT" other
    echo >>other
    export BUILT=$work/other
    expect_status "other bytes than those of dist/" 126 env PATH="$work/kit:$PATH" proof/bin/predator --prove
    expect_in_file "other bytes than those of dist/" err "isn't the program of dist/"
    expect_status "other bytes at a first call" 126 env PATH="$work/kit:$PATH" PREDATOR_BUILD=prove proof/bin/predator check proof/$program
    expect_status "dist/ after a refusal" 0 proof/bin/predator check proof/$program
    echo "-- more" >>proof/crates/base/specs/Lib.antt
    expect_status "proving other sources" 0 env PATH="$work/kit:$PATH" proof/bin/predator --prove
    expect_in_file "proving other sources" out "proved: these sources, which aren't those of dist/"
}

try_gate() {
    fresh gate
    mkdir -p gate/crates/predator/out
    cp one/crates/predator/out/predator gate/crates/predator/out/
    expect_status "the gate's program" 0 gate/bin/dist check
    echo >>gate/crates/predator/out/predator
    expect_status "another program than that of dist/" 1 gate/bin/dist check
    expect_in_file "another program than that of dist/" out "isn't the program that was built"
    cp one/crates/predator/out/predator gate/crates/predator/out/
    sed -i 's/^sources ./sources x/' gate/dist/manifest
    expect_status "a manifest of other sources" 1 gate/bin/dist check
    expect_in_file "a manifest of other sources" out "\`rt ci\`, then \`bin/dist renew\`"
}

try_install() {
    expect_status "install" 0 one/bin/install prefix
    expect_status "installed" 0 prefix/bin/predator run prefix/share/predator/$program
    expect_status "the installed version" 0 prefix/bin/predator --version
    expect_in_file "the installed version" out "came with the release"
    echo "share/predator/left" >>prefix/share/predator/installed
    echo >prefix/share/predator/left
    expect_status "an upgrade" 0 one/bin/install prefix
    expect_status "what an older version left" 1 test -e prefix/share/predator/left
    echo >prefix/bin/another
    expect_status "uninstall" 0 one/bin/install --uninstall prefix
    expect_status "what uninstall leaves" 0 test "$(find prefix -type f)" = prefix/bin/another
    expect_status "uninstall where nothing is" 1 one/bin/install --uninstall prefix
}

try_packages() {
    local it
    command -v git >/dev/null && command -v dpkg-deb >/dev/null && git -C "$top" diff --quiet HEAD 2>/dev/null || { echo "packages aren't tried: git and dpkg-deb, and a clean checkout"; return; }
    expect_status "the packages" 0 "$top/bin/release" packages
    sleep 1
    expect_status "the packages again" 0 "$top/bin/release" again
    for it in packages/*; do
        expect_status "the same bytes of ${it##*/}" 0 cmp "$it" "again/${it##*/}"
    done
    expect_status "what the package needs" 0 dpkg-deb -f packages/*.deb Depends
    expect_in_file "what the package needs" out "libc6 (>= 2.34)"
    tar -xf packages/*.tar.gz
    expect_status "the archive" 0 sh -c 'predator-*/bin/predator run predator-*/share/predator/guest/built/counters.elf'
    expect_in_file "the archive" out "count 4007"
}

try_first_call
try_places
try_damage
try_proving
try_gate
try_install
try_packages
finish_checks
