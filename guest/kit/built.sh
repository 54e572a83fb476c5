# shellcheck shell=bash
# Part of kit.sh, which reads it: the programs of built/ are what the sources and this compiler make.
#
# (kit.sh sets the names that aren't set here)
# shellcheck disable=SC2154

kit=copy/guest
mkdir -p $kit
# (without what was fetched and built of others)
tar -C "$here" -c --exclude=fetched --exclude=out . | tar -C $kit -x
rm -rf $kit/built
mkdir $kit/built
# (of the studies, those that are kept)
grep -v '^ *#' "$here/studies/builds.txt" | while read -r name rest; do
    if git -C "$here" ls-files --error-unmatch "built/studies/$name.elf" >/dev/null 2>&1; then
        echo "$name $rest"
    fi
done >$kit/studies/builds.txt
expect_success "the examples" $kit/build.sh examples
expect_success "the studies" $kit/build.sh studies
for it in $(cd "$here/built" && git ls-files '*.elf'); do
    case $it in
        linked.elf) command -v riscv64-unknown-elf-ld >/dev/null || { skip_checks 1 "linked.elf wants riscv64-unknown-elf-ld"; continue; } ;;
        as_is.elf | atomics.elf | studies/*) [ -n "$has_library" ] || { skip_checks 1 "$it wants picolibc"; continue; } ;;
    esac
    expect_success "$it isn't built as it stands in built/" same "$here/built/$it" "$kit/built/$it"
done
