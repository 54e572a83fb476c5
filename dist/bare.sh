#!/usr/bin/env bash
# Tries the package on a bare Debian: one made by mmdebstrap that has nothing but the package and what it names, and no kit. An ordinary user
# gives README's first commands there. In a checkout there, bin/test installs what it needs and tests everything but the proofs. An older
# Debian must say why the program can't run there.
#
#     dist/bare.sh [FOLDER]      (keeps the system in FOLDER, and takes it from there the next time)
#
# It takes half an hour, and fetches some 1,500 MB from a Debian mirror. Where there is none, or a slow one, or where it isn't root, it ends with 77. The last line is
# `N passed, M failed`.
set -u
top=$(cd "$(dirname "$(readlink -f "$0")")/.." && pwd)
. "$top/bin/sources.bash"
skip() { echo "$*"; exit 77; }
[ "$UID" = 0 ] || skip "only root makes a bare system"
command -v mmdebstrap >/dev/null || skip "mmdebstrap isn't installed"
work=$(mktemp -d)
system=${1:-$work/system}
bare=$system
trap 'umount "$bare/proc" "$bare/dev/pts" "$bare/dev/shm" 2>/dev/null; rm -rf --one-file-system "$work"' EXIT
passed=0 failed=0 is_root=
"$top/bin/release" "$work/packages" >/dev/null || skip "there is no package to try"

make() { # FOLDER SUITE
    timeout 400 mmdebstrap --quiet --variant=minbase "$2" "$1" >"$work/log" 2>&1 || { tail -n 3 "$work/log"; skip "no $2 could be made: is there a mirror?"; }
}
inside() { chroot "$system" env -i PATH=/usr/sbin:/usr/bin:/sbin:/bin LANG=C.UTF-8 DEBIAN_FRONTEND=noninteractive "$@"; }
# Calls a command in the user's own folder, or as root in the checkout.
call() {
    if [ -n "$is_root" ]; then
        inside HOME=/root sh -c "cd /root/checkout && $1"
    else
        inside runuser -u user -- sh -c "cd && $1"
    fi >"$work/out" 2>"$work/said" </dev/null
}

# try WHAT STATUS TEXT CALL: the call ends so, and prints or says the text.
try() {
    local status
    call "$4"
    status=$?
    if [ "$status" = "$2" ] && cat "$work/out" "$work/said" | grep -q -F -e "$3"; then
        passed=$((passed + 1))
    else
        failed=$((failed + 1))
        echo "$1: status $status, not $2, or no '$3':"
        head -n 5 "$work/out" "$work/said"
    fi
}

[ -d "$system/usr" ] || make "$system" bookworm
mkdir -p "$system/dev/pts" "$system/dev/shm"
mount -t proc proc "$system/proc" 2>/dev/null && mount --bind /dev/pts "$system/dev/pts" && mount -t tmpfs shm "$system/dev/shm" ||
    skip "/proc, /dev/pts and /dev/shm can't be mounted"
# (as an installer writes it; Slurm looks its own machine up)
echo "127.0.0.1 localhost $(hostname)" >"$system/etc/hosts"
cp "$work/packages/"*.deb "$system/root/predator.deb"
{
    inside timeout 100 apt-get update
    inside timeout 400 apt-get install -y -o Dpkg::Options::=--force-unsafe-io /root/predator.deb
    inside timeout 600 apt-get install -y -o Dpkg::Options::=--force-unsafe-io --no-install-recommends clang lld picolibc-riscv64-unknown-elf \
        gcc libc6-dev valgrind libc6-dbg snakemake man-db
    inside id user || inside useradd -m user
    # (a kept system's user and checkout begin anew)
    inside sh -c 'rm -rf /home/user/* /home/user/.cache /root/checkout'
} >"$work/log" 2>&1 || { tail -n 5 "$work/log"; skip "the packages couldn't be installed: is there a mirror?"; }

share=/usr/share/predator
try "the version" 0 "came with the release" "predator --version"
try "the report" 0 "count 4007" "predator run $share/guest/built/counters.elf"
try "the view" 0 "counters.c:13 (count) invalidates counters.c:13 (count)" "predator view run $share/guest/built/counters.elf"
try "the picture" 0 "counters" "predator view run $share/guest/built/counters.elf --html page.html && grep -c counters page.html && cat page.html"
try "a guest's build" 0 "count" "cp $share/guest/examples/counters.c . && $share/guest/build.sh my.elf counters.c && predator run my.elf"
try "the recorders, before they are built" 126 "predator native --build" "predator native -- /bin/true"
try "the recorders' build" 0 "built" "predator native --build"
try "a program of this machine" 0 "counters" "gcc -g -O1 -pthread $share/native/tries/counters.c -o counters && predator native --report r -- ./counters && cat r"
try "a campaign" 0 "counters" "predator campaign $share/campaign/plans/first.yaml --to first && cat first/table.tsv"
try "the manual page" 0 "find false sharing" "man predator | cat"
try "the completion" 0 "explain" "bash -c '. /usr/share/bash-completion/completions/predator; COMP_WORDS=(predator ex) COMP_CWORD=1; _predator; echo \${COMPREPLY[@]}'"

# README's two commands for who works on it. The second one installs what is missing, and without the kit it tests the program of dist/.
mkdir "$system/root/checkout"
(cd "$top" && tar -c --exclude=out --exclude=.git --exclude=__pycache__ --exclude=fetched --exclude='*.campaign' .) | tar -x --no-same-owner -C "$system/root/checkout"
is_root=1
try "the first command of a checkout" 0 "count 4007" "bin/predator run guest/built/counters.elf"
try "the test command" 0 ", 0 failed" "bin/test --install"
grep -E "^(FAILED|skipped)|passed, " "$work/out"
is_root=
inside "$share/native/build" >"$work/log" 2>&1
inside apt-get remove -y predator >"$work/log" 2>&1
try "what removing leaves" 0 "nothing" "find / -xdev -path '*predator*' ! -path '/home/*' ! -path '/var/lib/dpkg/*' ! -path '/root/*' 2>/dev/null | grep . || echo nothing"

make "$work/old" bullseye
cp "$work/packages/"*.tar.gz "$work/old/tmp/predator.tar.gz"
system=$work/old
inside useradd -m user >/dev/null 2>&1
try "an older C library" 126 "needs version 2.34 or later of the GNU C library" \
    "tar -xzf /tmp/predator.tar.gz && predator-*/bin/predator run predator-*/share/predator/guest/built/counters.elf"
echo "$passed passed, $failed failed"
[ "$failed" = 0 ]
