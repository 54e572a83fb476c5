#!/usr/bin/env bash
# Tries bin/test and bin/try themselves, in a checkout of its own that has few small parts in the place of all others, and a stand-in for the kit's
# command `rt`:
#
#     tools/try_test.sh
#
# What is tried: what each run has, the sums and the status, parts that fail, that fail once, that take too long, that skip themselves and that leave
# processes, that outputs don't mix and what wants to be alone is, Ctrl-C and other signals, a run that is killed, two calls at once, a checkout that
# can't be written, and the kit: the right one, another one, none. The last line is `N passed, M failed, K skipped`.
set -u
top=$(cd "$(dirname "$(readlink -f "$0")")/.." && pwd)
work=$(mktemp -d)
trap 'chmod -R u+w "$work"; rm -rf "$work"' EXIT
cd "$work" || exit 1
# shellcheck source=tools/checks.bash
. "$top/tools/checks.bash"
unset PREDATOR_PROGRAM PREDATOR_BUILD PART_SECONDS PREDATOR_PART
export PATH=/usr/bin:/bin TMPDIR=$work/tmp

# A checkout with the launcher, dist/ and the sources of the crates, whose parts are these.
mkdir checkout tmp kit
(cd "$top" && tar -c --exclude=out bin dist crates crates.txt VERSION guest/built/apart.elf) | tar -x -C checkout
# (nothing here can build the module, as where there is no kit)
mkdir checkout/anywhere
echo 'raise SystemExit(127)' >checkout/anywhere/build.py
# (whatever sources dist/ is of)
# shellcheck source=bin/sources.bash
. checkout/bin/sources.bash
sed -i "s/^sources .*/sources $(sources checkout)/" checkout/dist/manifest
cat >checkout/bin/parts.bash <<'PARTS'
packages=(bash no-such-package) long_packages=() part_names=()
declare -A part_runs part_processors part_tries part_seconds part_needs part_commands
part() {
    part_names+=("$1")
    part_runs[$1]=$2 part_processors[$1]=$3 part_tries[$1]=$4 part_seconds[$1]=$5 part_needs[$1]=$6
    part_commands[$1]="bash -c $(printf '%q' "$7")"
}
declare_parts() {
    part good quick 1 1 1 program 'echo not to be seen; mktemp >/dev/null'
    part lines daily 1 1 2 "" 'for i in 1 2 3 4; do echo "skipped lines $i"; sleep 0.1; done; echo "test_it (own.Own.test_it) ... skipped \"there is no go\""'
    part lacks daily 1 1 1 no_such_command 'exit 1'
    part itself daily 1 1 1 "" 'echo first; echo this machine has none; exit 77'
    part alone daily all 1 1 "" '[ -z "$(ls ../*/busy 2>/dev/null)" ]'
    part busy daily 1 1 9 "" 'touch $TMPDIR/busy; sleep 1'
    part broken bad 1 2 1 "" 'for i in 1 2 3; do echo "broken $i"; sleep 0.2; done; exit 3'
    part broken_too bad 1 1 1 "" 'for i in 1 2 3; do echo "too $i"; sleep 0.2; done; exit 4'
    part flaky bad 1 2 1 "" 'ls "$FLAKY" 2>/dev/null || { touch "$FLAKY"; exit 1; }'
    part slow bad 1 1 1 "" 'sleep 50'
    part leaves bad 1 1 1 "" '(setsid sleep 50 &) ; exit 0'
    part endless long 1 1 1 "" 'trap "" INT; setsid sleep 60 & sleep 60'
}
PARTS

# call STATUS WORD ..: the command in the checkout ends so. What it prints stands in `out`.
call() {
    local wanted=$1 status
    shift
    "$@" >out 2>&1 </dev/null
    status=$?
    expect_equal "the status of ${*##*/}" "$wanted" "$status"
    # (times differ)
    sed -i -E 's/[0-9]+ s(; processor [0-9]+ s)?([,)])/T s\2/' out
    expect_equal "what ${*##*/} leaves" "" "$(ls -A tmp; grep -l -s -z -e "^PREDATOR_PART=$work/" /proc/[0-9]*/environ)"
}
last() { expect_equal "$1: the last line" "$2" "$(tail -n 1 out)"; }

try_runs() {
    call 0 checkout/bin/test
    last "all" "4 passed, 0 failed"
    expect_line "all" "    lacks: no_such_command isn't installed"
    expect_line "all" "    itself: this machine has none"
    expect_line "all" "    lines (in part): lines 3"
    expect_line "all" "    lines (in part): there is no go"
    expect_line "all" "    apt-get install no-such-package"
    expect_line "all" "The proofs weren't checked here: the Rattle kit isn't installed."
    expect_equal "what a part that passes prints" 0 "$(grep -c "not to be seen" out)"
    call 0 checkout/bin/test --quick
    last "quick" "1 passed, 0 failed"
    expect_line "quick" "This was the quick run; bin/test tries the rest."
    call 2 checkout/bin/test --fast
    call 2 checkout/bin/test --jobs none
    call 0 checkout/bin/test --jobs 1
    last "one at a time" "4 passed, 0 failed"
    call 0 checkout/bin/test --help
    call 1 env TMPDIR=/nonexistent checkout/bin/test
    expect_line "no folder" "test: no folder for temporary files can be made in /nonexistent: set TMPDIR"
}

try_failures() {
    call 1 checkout/bin/try broken broken_too good
    last "broken" "1 passed, 2 failed, 0 skipped"
    expect_line "broken" "failed at first (status 3, T s), and is tried once more: broken"
    # (each part's lines stand together)
    expect_equal "the lines of what fails" "broken 1 broken 2 broken 3 too 1 too 2 too 3 broken 1 broken 2 broken 3" \
        "$(grep -E '^(broken|too) [0-9]' out | paste -s -d ' ' | sed -E 's/^(too 1 too 2 too 3) (broken 1 broken 2 broken 3)/\2 \1/')"
    FLAKY=$work/flaky call 0 checkout/bin/try flaky
    expect_line "flaky" "failed at first (status 1, T s), and is tried once more: flaky"
    expect_line "flaky" "passed: flaky (T s, at the second try)"
    PART_SECONDS=1 call 1 checkout/bin/try slow
    expect_line "slow" "FAILED: slow (status 124, T s): bash -c sleep\\ 50"
    call 0 checkout/bin/try leaves
    expect_line "leaves" "note: leaves left processes behind, which were ended"
    call 1 checkout/bin/try none
    last "no part" "0 passed, 1 failed, 0 skipped"
}

# stopped SIGNAL STATUS WHY: a run ends at once by a signal to its group, and so do the processes that ignore it or have left the group.
stopped() {
    local pid began status
    setsid env --default-signal=INT,QUIT "$PWD/checkout/bin/test" --long >out 2>&1 </dev/null &
    pid=$!
    for began in $(seq 100); do
        [ "$(grep -l -s -z -e "^PREDATOR_PART=.*/endless" /proc/[0-9]*/environ | grep -c .)" -lt 3 ] || break
        sleep 0.1
    done
    began=$SECONDS
    kill -"$1" -- "-$pid"
    wait "$pid"
    status=$?
    expect_equal "the status after $1" "$2" "$status"
    expect_equal "what $1 says" 1 "$(grep -c "^test: stopped by $3; until then [0-9]* passed, [0-9]* failed$" out)"
    expect_equal "whether $1 takes long" "" "$( ((SECONDS - began < 15)) || echo "$((SECONDS - began)) s")"
    expect_equal "what $1 leaves" "" "$(ls -A tmp; grep -l -s -z -e "^PREDATOR_PART=.*/endless" /proc/[0-9]*/environ)"
}

# What a run that is killed leaves, the next one removes.
try_killed() {
    local pid
    setsid "$PWD/checkout/bin/test" --long >killed 2>&1 </dev/null &
    pid=$!
    for _ in $(seq 100); do
        grep -q -s -z -e "^PREDATOR_PART=.*/endless" /proc/[0-9]*/environ && break
        sleep 0.1
    done
    kill -KILL "$pid"
    wait "$pid" 2>/dev/null
    expect_equal "a killed run leaves its folder" 1 "$(find tmp -mindepth 1 -maxdepth 1 | grep -c .)"
    call 0 checkout/bin/test --quick
}

# A call ends at once while another one has the lock on the checkout, and the next one goes on.
try_two() {
    local holder
    flock checkout sleep 20 &
    holder=$!
    until ! flock -n checkout true; do sleep 0.1; done
    "$PWD/checkout/bin/test" --quick >out 2>&1 </dev/null
    expect_equal "the status of a second call" 2 "$?"
    expect_line "a second call" "test: another bin/test runs in $work/checkout: wait until it ends"
    pkill -P "$holder"
    wait "$holder" 2>/dev/null
    call 0 checkout/bin/test --quick
}

try_sealed() {
    local plainly=()
    cp -R checkout sealed
    chmod 755 "$work"
    chmod 1777 tmp
    chmod -R a-w sealed
    if [ "$UID" = 0 ]; then plainly=(setpriv --reuid=65534 --regid=65534 --clear-groups); fi
    call 0 ${plainly[@]+"${plainly[@]}"} env HOME=/nonexistent sealed/bin/test
    last "read-only" "4 passed, 0 failed"
    expect_line "read-only" "$work/sealed can't be written, so a copy of it is tried, without its history."
}

try_kit() {
    local kit
    kit=$(sed -n 's/^kit //p' checkout/dist/manifest)
    # (in place of the kit's command)
    cat >kit/rt <<RT
#!/bin/bash
case \$1 in
    version) echo "\$KIT" ;;
    ci)
        echo "rt: \$CI_SAYS"
        mkdir -p crates/predator/out
        gzip -dc dist/predator.gz >crates/predator/out/predator
        chmod 755 crates/predator/out/predator
        exit "\$CI_STATUS"
        ;;
esac
RT
    chmod 755 kit/rt
    export PATH=$work/kit:$PATH KIT=$kit CI_SAYS=ok CI_STATUS=0
    call 0 checkout/bin/test
    last "the kit" "6 passed, 0 failed"
    expect_line "the kit" "rt: ok"
    expect_line "the kit" "The proofs were checked: \`rt ci\` passed."
    call 0 checkout/bin/test --proved
    last "proved before" "5 passed, 0 failed"
    expect_line "proved before" "dist: the program that was built is that of dist/"
    CI_STATUS=1 CI_SAYS=no call 1 checkout/bin/test
    last "proofs that fail" "0 passed, 1 failed"
    KIT="other logic 0123456789abcdef" call 0 checkout/bin/test
    expect_line "another kit" "The proofs weren't checked here: the kit that is installed here is other logic 0123456789abcdef, and dist/ was built by $kit."
    echo >>checkout/crates/predator/out/predator
    call 1 checkout/bin/test --proved
    last "another program than that of dist/" "4 passed, 1 failed"
    rm checkout/crates/predator/out/predator
    call 1 checkout/bin/test --proved
}

# README names the packages that bin/test looks for.
try_packages() {
    local named
    # shellcheck source=bin/parts.bash
    named=$(. "$top/bin/parts.bash" && echo "${packages[*]}")
    expect_equal "the packages in README" "$named" \
        "$(sed -n '/^    apt-get install clang/,/^$/p' "$top/README.md" | tr -d '\\\n' | sed 's/ *apt-get install *//' | tr -s ' ')"
}

try_packages
try_runs
try_failures
stopped INT 130 Ctrl-C
stopped TERM 143 "a signal to end"
try_killed
try_two
try_sealed
try_kit
finish_checks
