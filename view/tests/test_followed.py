"""Programs whose advice is followed to the letter: all misses come to what was foretold, and where no layout is named none helps."""

import json
import os
import re
import shutil
import subprocess
import sys
import tempfile
import unittest

from calling import HERE, PROGRAM, TOP, has, joined, view

sys.path[:0] = [os.path.join(HERE, "..", ".."), os.path.join(HERE, "..", "..", "tools")]

from traces import Access, located_records  # noqa: E402

FOLLOWED = os.path.join(HERE, "programs", "followed")
LACKS = [it for it in ("clang", "ld.lld") if shutil.which(it) is None]
LINE = "__attribute__((aligned(64)))"
MISSES = ("false_sharing", "true_sharing", "cold")
NONE = "none: "


class Following(unittest.TestCase):
    """How a program is built and viewed, and how its fixes are made."""

    def setUp(self):
        self.folder = tempfile.mkdtemp()
        self.addCleanup(shutil.rmtree, self.folder)

    def path(self, name):
        return os.path.join(self.folder, name)

    def build(self, name, text, flags=()):
        with open(self.path(f"{name}.c"), "w", encoding="utf-8") as file:
            file.write(text)
        command = [os.path.join(TOP, "guest", "build.sh"), f"{name}.elf", f"{name}.c", "--", *flags]
        ran = subprocess.run(command, cwd=self.folder, capture_output=True, text=True)
        self.assertEqual((ran.returncode, ran.stderr), (0, ""), name)
        return f"{name}.elf"

    def look(self, program, *words):
        usual = () if "--explain" in words else ("--explain", "0")
        call = ("run", program, *usual, "--no-fine", *words, "--json", self.path("json"))
        status, text, said = view(*call, program=PROGRAM, cwd=self.folder)
        self.assertEqual((status, said), (0, ""), program)
        with open(self.path("json"), encoding="utf-8") as file:
            return {**json.load(file), "screen": joined(text)}

    def missed(self, found):
        return sum(found["total"][it] for it in MISSES)

    def source(self, name):
        with open(os.path.join(FOLLOWED, f"{name}.c"), encoding="utf-8") as file:
            return file.read()

    def follow(self, name, says, edits, flags=(), words=()):
        """Builds a program with what its fix says, and compares all misses with those that were foretold. `says` are parts of the fix,
        `edits` what is replaced in the source."""
        text = self.source(name)
        before = self.look(self.build(name, text, flags), *words)
        first = next(it for it in before["objects"] if it["tried"])
        for sentence in says:
            self.assertIn(sentence, first["fix"].replace("`", ""), name)
        for old, new in edits:
            self.assertIn(old, text)
            text = text.replace(old, new)
        after = self.look(self.build(f"{name}-followed", text, flags), *words)
        predicted = sum(first["tried"]["after"][it] for it in MISSES)
        saved = self.missed(before) - predicted
        self.assertGreater(saved * 5, self.missed(before) - before["total"]["cold"], name)
        self.assertLessEqual(
            abs(predicted - self.missed(after)),
            max(predicted, self.missed(after)) / 10 + 2,
            f"{name}: {self.missed(before)} before, {predicted} foretold, {self.missed(after)} counted",
        )
        if os.environ.get("PREDATOR_FOLLOWED"):
            row = (name, self.missed(before), predicted, self.missed(after))
            print("|", " | ".join(map(str, row)), "|", file=sys.stderr)
        return before

    def separated(self, command):
        """All misses of a run that `command` records, and those with each word of it on a line of its own, as the program counts both."""
        trace, table, moved = (self.path(it) for it in ("trace", "table", "moved"))
        words = [*command[:2], "--trace", trace, *command[2:]]
        subprocess.run(words, cwd=self.folder, capture_output=True, check=True)
        with open(trace, "rb") as file:
            data = file.read()
        records = [it for *_, it in located_records(data)]
        words = sorted({it.addr // 4 * 4 for it in records if isinstance(it, Access)})
        counts = []
        for own in ([], words):
            with open(table, "w", encoding="ascii") as file:
                for place, word in enumerate(own):
                    file.write(f"{word:#x} 4 {0xC0000000 + 64 * place:#x}\n")
            subprocess.run([PROGRAM, "move", trace, table, moved], capture_output=True, check=True)
            text = subprocess.run([PROGRAM, "misses", moved], capture_output=True, text=True).stdout
            found = re.search(r"^total cold (\d+) useful (\d+) useless (\d+)$", text, re.MULTILINE)
            counts.append([int(it) for it in found.groups()])
        return counts

    def no_layout_helps(self, name, found, command):
        """Where no layout is said to help, each word on a line of its own saves less than a tenth."""
        fixes = [it["fix"] for it in found["objects"] if it["fix"].startswith(NONE)]
        self.assertNotEqual(fixes, [], name)
        before, *apart = self.separated(command)
        least = min(useful + useless for _, useful, useless in apart)
        self.assertGreaterEqual(least * 10, (before[1] + before[2]) * 9, (name, apart))


@unittest.skipIf(LACKS, f"{' '.join(LACKS)} missing")
@unittest.skipUnless(has(PROGRAM, "misses", "move"), "the program isn't built, or has no move")
class Followed(Following):
    def test_tallies(self):
        fields = "volatile uint64_t found; volatile uint64_t lost; volatile uint64_t bytes;"
        self.follow(
            "tallies",
            [
                "join found, lost and bytes to one array of 4 elements of"
                f" struct {LINE} found_lost_bytes {{ {fields} }};"
            ],
            [
                (
                    "static volatile uint64_t found[THREADS], lost[THREADS], bytes[THREADS];",
                    f"static struct {LINE} found_lost_bytes {{ {fields} }} own[THREADS];",
                ),
                ("found[me]", "own[me].found"),
                ("lost[me]", "own[me].lost"),
                ("bytes[me]", "own[me].bytes"),
            ],
        )

    def test_lanes(self):
        wrapper = f"struct {LINE} lanes_line {{ volatile uint32_t value[3]; }};"
        self.follow(
            "lanes",
            [f"give each element of lanes its own line: wrap it in {wrapper}"],
            [
                (
                    "static volatile uint32_t lanes[THREADS][3];",
                    f"{wrapper} static struct lanes_line lanes[THREADS];",
                ),
                ("lanes[me][i % 3]", "lanes[me].value[i % 3]"),
            ],
        )

    def test_gauges(self):
        wrapper = f"struct {LINE} level_line {{ volatile uint32_t value; }};"
        self.follow(
            "gauges",
            [
                f"left (hart 1); right (hart 2); put {LINE} after right",
                f"give each element of level its own line: wrap it in {wrapper}",
                " (gauges.c:10) each its own line",
            ],
            [
                ("left, right;", f"left, right {LINE};"),
                (
                    "static volatile uint32_t level[2], rises, falls;",
                    f"{wrapper} static struct level_line level[2]; static volatile uint32_t rises"
                    f" {LINE}, falls {LINE};",
                ),
                ("level[me]", "level[me].value"),
            ],
        )

    def test_slots(self):
        self.follow(
            "slots",
            [
                f"give each element its own line: struct {LINE} slot (slots.c:9), allocated with"
                " aligned_alloc(64, ..)"
            ],
            [
                ("struct slot {", f"struct {LINE} slot {{"),
                (
                    "calloc(THREADS, sizeof *slots)",
                    "__builtin_memset(aligned_alloc(64, 256), 0, 256)",
                ),
            ],
        )

    def test_timers(self):
        self.follow(
            "timers",
            [
                "give each element of timers.last its own line",
                "in_ticks, in_late (hart 1); out_ticks, out_late (hart 2); last (several threads);",
            ],
            [
                (
                    "volatile uint32_t in_ticks, out_ticks, in_late, out_late;",
                    f"volatile uint32_t in_ticks, in_late; volatile uint32_t out_ticks {LINE},"
                    " out_late;",
                ),
                (
                    "volatile uint64_t last[2];",
                    f"struct {LINE} timers_last_line {{ volatile uint64_t value; }} last[2] {LINE};",
                ),
                ("last[me]", "last[me].value"),
            ],
        )

    def test_lookup(self):
        self.follow(
            "lookup",
            [
                "group the fields of struct table (lookup.c:10), each group on its own lines:"
                f" mask, seed, keys (read-only); found (several threads); put {LINE} after found,"
                " allocated with aligned_alloc(64, ..), 64 → 128 bytes"
            ],
            [
                ("    atomic_uint found;\n", ""),
                ("keys[13];\n", f"keys[13];\n    atomic_uint found {LINE};\n"),
                ("calloc(1, sizeof *table)", "__builtin_memset(aligned_alloc(64, 128), 0, 128)"),
            ],
        )

    def test_phases(self):
        wrapper = f"struct {LINE} sums_line {{ volatile uint64_t value; }};"
        self.follow(
            "phases",
            [f"give each element of sums its own line: wrap it in {wrapper}"],
            [
                (
                    "static volatile uint64_t sums[THREADS];",
                    f"{wrapper} static struct sums_line sums[THREADS];",
                ),
                ("sums[me]", "sums[me].value"),
            ],
        )

    def test_arrays(self):
        wrapper = f"struct {LINE} hits_misses {{ volatile int hits; volatile int misses; }}"
        edits = [("hits[me]", "own[me].hits"), ("misses[me]", "own[me].misses")]
        variables = "static volatile int hits[THREADS], misses[THREADS];\n"
        edits = [
            (variables, f"static {wrapper} own[THREADS];\n"),
            ("#define HITS hits\n", ""),
            ("#define MISSES misses\n", ""),
            ("HITS[me]", "own[me].hits"),
            ("MISSES[me]", "own[me].misses"),
        ]
        self.follow("arrays", ["join hits and misses to one array of 4 elements of"], edits)
        inner = "    volatile int hits[THREADS], misses[THREADS];\n"
        edits = [
            (inner, f"    {wrapper} own[THREADS];\n"),
            ("HITS[me]", "stats.own[me].hits"),
            ("MISSES[me]", "stats.own[me].misses"),
        ]
        self.follow("arrays", ["join stats.hits and stats.misses to one"], edits, ["-DWITHIN"])

    def test_scalars(self):
        self.follow(
            "scalars",
            ["each its own line", "produced (scalars.c:4)", "most_sent (scalars.c:4)"],
            [
                (
                    "produced, consumed, sent, received, most_sent, most_received;",
                    ", ".join(
                        f"{field} {LINE}"
                        for field in ("produced", "consumed", "sent", "received", "most_sent")
                    )
                    + f", most_received {LINE};",
                )
            ],
        )

    def test_columns(self):
        before = self.follow(
            "columns",
            [f"transpose matrix to matrix[32][32], with {LINE} after its dimensions"],
            [
                ("matrix[ROWS][COLUMNS]", f"matrix[COLUMNS][ROWS] {LINE}"),
                ("matrix[row][column]", "matrix[column][row]"),
                ("matrix[row - 1][column]", "matrix[column][row - 1]"),
            ],
        )
        self.assertEqual(before["objects"][0]["tried"]["after"]["bytes"], 4096)

    def test_stripes(self):
        """A lock, a count and each eighth value are of one stripe."""
        fields = "pthread_mutex_t locks; uint32_t counts; uint32_t values[8];"
        wrapper = f"struct {LINE} locks_counts_values {{ {fields} }}"
        self.follow(
            "stripes",
            [
                "join table.locks, table.counts and table.values to one array of 8 elements of"
                f" {wrapper};, with values[i] as [i % 8].values[i / 8], allocated with"
                " aligned_alloc(64, ..)"
            ],
            [
                ("    pthread_mutex_t locks[STRIPES];\n", f"    {wrapper} own[STRIPES];\n"),
                ("    uint32_t counts[STRIPES], values[64];\n", ""),
                ("&made->locks[i]", "&made->own[i].locks"),
                ("&table->locks[stripe]", "&table->own[stripe].locks"),
                ("table->counts[stripe]", "table->own[stripe].counts"),
                ("table->values[at]", "table->own[stripe].values[at / STRIPES]"),
                (
                    "calloc(1, sizeof *made)",
                    "__builtin_memset(aligned_alloc(64, sizeof *made), 0, sizeof *made)",
                ),
            ],
        )

    def test_buckets(self):
        """The same of pointers, of which each stripe has several."""
        fields = "pthread_mutex_t locks; uint32_t counts; struct entry *buckets[4];"
        wrapper = f"struct {LINE} locks_counts_buckets {{ {fields} }}"
        self.follow(
            "buckets",
            [
                f"join table.locks, table.counts and table.buckets to one array of 16 elements of {wrapper};,"
                " with buckets[i] as [i % 16].buckets[i / 16], allocated with aligned_alloc(64, ..)"
            ],
            [
                ("    pthread_mutex_t locks[STRIPES];\n", f"    {wrapper} own[STRIPES];\n"),
                (
                    "    uint32_t counts[STRIPES];\n    struct entry *buckets[BUCKETS];\n",
                    "",
                ),
                ("&table->locks[i]", "&table->own[i].locks"),
                ("&table->locks[stripe]", "&table->own[stripe].locks"),
                ("table->counts[stripe]", "table->own[stripe].counts"),
                (
                    "&table->buckets[hash % BUCKETS]",
                    "&table->own[stripe].buckets[hash % BUCKETS / STRIPES]",
                ),
                (
                    "calloc(1, sizeof *table)",
                    "__builtin_memset(aligned_alloc(64, sizeof *table), 0, sizeof *table)",
                ),
            ],
        )

    def test_tiles(self):
        """A layout together with other elements for each thread, whose accesses to those beside them move along."""
        wrapper = f"struct {LINE} changed_line {{ int32_t value; }};"
        self.follow(
            "tiles",
            [
                f"give each element of changed its own line: wrap it in {wrapper}, 4 → 64 bytes each;"
                " assign neighbouring elements of grid[..] to one thread"
            ],
            [
                (
                    "static int32_t changed[THREADS];",
                    f"{wrapper} static struct changed_line changed[THREADS];",
                ),
                ("changed[me]++", "changed[me].value++"),
                (
                    "for (int y = 1 + me; y < HEIGHT - 1; y += THREADS)",
                    "for (int y = 1 + 8 * me; y < 9 + 8 * me && y < HEIGHT - 1; y++)",
                ),
            ],
        )

    def test_shards(self):
        wrapper = f"struct {LINE} locks_shards {{ pthread_mutex_t locks; struct shard shards; }}"
        self.follow(
            "shards",
            [f"join locks and shards to one array of 4 elements of {wrapper};"],
            [
                (
                    "static struct shard shards[THREADS];\nstatic pthread_mutex_t locks[THREADS];",
                    f"static {wrapper} own[THREADS];",
                ),
                ("locks[me]", "own[me].locks"),
                ("shards[me]", "own[me].shards"),
            ],
        )

    def test_guarded(self):
        """Bytes that atomic instructions use by whole words, beside what they guard."""
        fields = "atomic_flag locks; volatile uint32_t sums; volatile uint32_t turns;"
        wrapper = f"struct {LINE} locks_sums_turns {{ {fields} }}"
        found = self.follow(
            "guarded",
            [f"join locks, sums and turns to one array of 4 elements of {wrapper};"],
            [
                (
                    "static atomic_flag locks[THREADS];\n"
                    "static volatile uint32_t sums[THREADS], turns[THREADS];",
                    f"static {wrapper} own[THREADS];",
                ),
                ("locks[me]", "own[me].locks"),
                ("sums[me]", "own[me].sums"),
                ("turns[me]", "own[me].turns"),
            ],
        )
        self.assertGreater(found["total"]["false_sharing"], 20 * found["total"]["true_sharing"])

    def test_relay(self):
        """A qualifier stays: without it the wait for a flag would never end."""
        wrapper = f"struct {LINE} turn_line {{ volatile int value; }};"
        self.follow(
            "relay",
            [f"give each element of turn its own line: wrap it in {wrapper}"],
            [
                (
                    "static volatile int turn[THREADS];",
                    f"{wrapper} static struct turn_line turn[THREADS];",
                ),
                ("turn[me]", "turn[me].value"),
                ("turn[(me + 1) % THREADS]", "turn[(me + 1) % THREADS].value"),
                ("turn[0]", "turn[0].value"),
            ],
            words=("--set", "quantum=3"),
        )

    def test_contexts(self):
        """Variables on a stack, of a function that is inlined in another."""
        before = self.follow(
            "contexts",
            [
                f"give each element of contexts its own line: struct {LINE} context (contexts.c:7),"
                " 12 → 64 bytes each"
            ],
            [("struct context {", f"struct {LINE} context {{")],
        )
        self.assertEqual(before["objects"][0]["name"], "contexts")
        self.assertIn(
            "contexts: struct context[4], contexts.c:23 (in main, on the stack of hart 0)",
            before["screen"],
        )

    def test_aligned(self):
        """Variables of a stack that their function aligns anew."""
        self.follow(
            "aligned",
            [
                "group the fields of struct pair (aligned.c:10), each group on its own lines: first (hart 1);"
                f" second (hart 2); put {LINE} after second"
            ],
            [("    int first, second;\n", f"    int first {LINE};\n    int second {LINE};\n")],
            words=("--explain", "1"),
        )

    def test_no_layout_helps(self):
        for name in ("broker", "ledger", "mailbox"):
            program = self.build(name, self.source(name))
            self.no_layout_helps(name, self.look(program), [PROGRAM, "run", program])


RECORDER = os.path.join(TOP, "native", "out", "predator-amd64-linux")


@unittest.skipUnless(shutil.which("gcc"), "gcc is missing")
@unittest.skipUnless(
    os.path.exists(RECORDER) and has(PROGRAM, "misses", "move"),
    "the recorder of native/ or the program isn't built",
)
class FollowedHere(Following):
    """The same of programs of this machine."""

    def test_no_layout_helps(self):
        name = "ledger"
        with open(self.path(f"{name}.c"), "w", encoding="utf-8") as file:
            file.write(self.source(name))
        build = ["gcc", "-g", "-O2", "-pthread", f"{name}.c", "-o", name]
        subprocess.run(build, cwd=self.folder, check=True)
        call = ("native", f"./{name}", "--explain", "0", "--json", self.path("json"))
        status, _, _ = view(*call, program=PROGRAM, cwd=self.folder)
        self.assertEqual(status, 0)
        with open(self.path("json"), encoding="utf-8") as file:
            found = json.load(file)
        record = [os.path.join(TOP, "bin", "predator"), "native", "--no-pcs", "--", f"./{name}"]
        self.no_layout_helps(name, found, record)


if __name__ == "__main__":
    unittest.main()
