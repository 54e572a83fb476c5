# shellcheck shell=bash
# Part of native/try.sh, which reads it: tries that samples of perf stand beside the objects that they fell on. The text is made by hand in the
# form of `perf script --show-mmap-events`, as though another run of the program had been sampled.
#
# (try.sh sets the names that aren't set here)
# shellcheck disable=SC2154

gcc -g -O1 -pthread "$here/../examples/hits.c" -o hits
"$run" --trace p -- ./hits >/dev/null 2>&1
# Where the other run had its data and code, and what a mapping says of a segment with these flags.
base=$((0x55d1c2b3a000))
mapping() { # FLAGS RIGHTS
    readelf -lW hits | awk '$1 == "LOAD"' | sed 's/R E/RE/' | awk -v flags="$1" '$7 == flags { print $2, $3; exit }' | while read -r offset at; do
        printf 'hits 4711/4711 80.100: PERF_RECORD_MMAP2 4711/4711: [0x%x(0x1000) @ 0x%x fe:01 12 0]: %s %s\n' \
            $((base + (at & ~4095))) $((offset & ~4095)) "$2" "$PWD/hits"
    done
}
samples() { # TIMES ADDRESS OP SNOOP WEIGHT
    local it
    for ((it = 0; it < $1; it++)); do
        printf 'hits  4711/4712 [002]    80.5%03d:         30 cpu/mem-%ss,ldlat=30/P: %16x         68100142 |OP %s|LVL L3 or L3 hit|SNP %s|TLB L1 or L2 hit|LCK No|BLK  N/A %16d %16x work+0x1d (%s)\n' \
            "$it" "${3,,}" "$2" "$3" "$4" "$5" $((base + 0x1166)) "$PWD/hits"
    done
}
at=$((base + 0x$(nm hits | awk '$3 == "hits" { print $1 }')))
{
    mapping RE r-xp
    samples 7 $at LOAD HitM 200
    samples 3 $((at + 8)) LOAD Hit 40
    samples 2 $((at + 8)) STORE N/A 0
    samples 4 $((base + 0x2004)) LOAD None 7
    samples 5 $((0x7f0000001000)) LOAD None 7
} >sampled
{ mapping RW rw-p; grep -v MMAP sampled; } >by-data
grep -v MMAP sampled >unmapped
echo "no samples" >nothing
perf() { "$here/../bin/predator" view replay p --no-predicted --perf "$1" 2>&1; }
wanted="    1  hits: 12 samples on its lines: 7 found the line modified by another core (HITM), 2 are stores; loads took 152 cycles on average"
for name in sampled by-data; do
    said=$(perf $name)
    expect_part "perf: $name" "$wanted" "$said"
    expect_part "perf: $name: all" "perf: 21 memory samples of $name" "$said"
    expect_part "perf: $name: elsewhere" " samples on the heap, stacks or unknown files" "$said"
done
expect_part "perf: no mappings" "21 samples on the heap, stacks or unknown files" "$(perf unmapped)"
expect_part "perf: no samples" "nothing has no memory samples: make it by" "$(perf nothing)"
expect_part "perf: no file" "nowhere: No such file or directory" "$(perf nowhere)"
rm -f p p.* sampled by-data unmapped nothing
