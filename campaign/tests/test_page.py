"""Tests of the page of a campaign: its texts, drawings and size."""

import html
import os
import re
import sys
import unittest

HERE = os.path.dirname(os.path.abspath(__file__))
sys.path.insert(0, os.path.join(HERE, "..", ".."))

from campaign import campaign_page  # noqa: E402
from campaign.observations import (  # noqa: E402
    Observations,
    RowKey,
    RunSummary,
    SeedCounts,
    group_objects,
    object_rows,
)
from campaign.rerun_commands import view_command  # noqa: E402
from campaign.run_results import AddressKey  # noqa: E402
from test_tables import observe, record, symbol  # noqa: E402
from view.names.naming import Memory  # noqa: E402
from view.output.drawings import COLUMNS, DOWN, UP, spread, strip  # noqa: E402

LAYOUT = 64, 0
# A row of the strips.
ROW = re.compile(
    r"(?s)<tr><td>(.*?)</td>\n<td.*?>(.*?)</td><td.*?>(.*?)</td><td.*?>(.*?)</td>\n<td>(.*?)</td></tr>"
)


def campaign(*settings, schedule=None, names=("one",)):
    programs = {
        name: {"name": name, "file": f"/work/my {name}.elf", "schedule": schedule} for name in names
    }
    return {
        "programs": programs,
        "groups": [{"program": name, "settings": it} for name in names for it in settings],
    }


def text_of(cell):
    """The text of a cell."""
    return html.unescape(
        re.sub(r"<[^>]*>", "", re.sub(r"<br>", " ", re.sub(r"(?s)<svg.*?</svg>", "", cell)))
    ).strip()


def bars_of(path):
    """The bars of a path, by the middles of their columns."""
    return {int(x): int(length) for x, length in re.findall(r"M(\d+) \d+v(-?\d+)", path)}


def exit_runs(group, seeds):
    return [RunSummary(group, seed, "exit 0", 9, 9, 1, 1, 1, 1) for seed in seeds]


def observed(group, at=0):
    """The key of an observed line by its number."""
    return RowKey(group, LAYOUT, "observed"), AddressKey("address", 64 * at)


def make_observations(seeds, objects, groups):
    """Runs whose objects have numbers of their own, some of which aren't there."""
    observations = Observations()
    for group in range(groups):
        observations.runs += exit_runs(group, seeds)
        for at in range(objects):
            counts = []
            for seed in seeds:
                total = None if (seed + at) % 3 == 0 else 100 + seed * (at + group + 1) % 97
                counts.append(SeedCounts(seed, total, seed * 31 % (at + 7)))
            observations.lines[observed(group, at)] = {(f"object{at}", 0): 1}, counts
            if at % 2:
                counts = [SeedCounts(it, None if it % 2 else 200 + it, None) for it in seeds]
                key = RowKey(group, (128, 0), "doubled"), AddressKey("address", 128 * at)
                observations.lines[key] = {(f"object{at}", 0): 1}, counts
    return observations


class Pages(unittest.TestCase):
    def page(self, observations, *settings, missing=(), **more):
        text = campaign_page.campaign_page(campaign(*settings, **more), observations, missing)
        for pattern in (r"<script", r"https?:", r"""(src|href)="""):
            self.assertNotRegex(text, pattern)
        return text

    def test_one_group(self):
        records = [
            record(1, [symbol(0x11000, 110, 5)]),
            record(2, [symbol(0x11000, 250, 5)]),
            record(3, []),
        ]
        text = self.page(observe(*records), {"quantum": 3}, schedule={"file": "fill it"})
        title = "low of one, quantum=3 is contended in 2 of 3 seeds; worst is seed 2, with 250 invalidations"
        self.assertIn(f"<h1>{title}</h1>", text)
        self.assertIn("<h2>one, quantum=3: 3 seeds</h2>", text)
        cells = re.findall(r'<td class="n" data-of="([^"]*)">(.*?)</td>', text)
        each = "min / median / max"
        self.assertEqual(
            cells,
            [
                ("listed in seeds", "2 of 3"),
                (f"false-sharing misses, {each}", "-"),
                (f"invalidations, {each}", "110 / 110 / 250"),
            ],
        )
        self.assertIn(
            "predator view run &#39;/work/my one.elf&#39; --set quantum=3,seed=2 --schedule &#39;fill it&#39;",
            text,
        )
        # Ticks for the two seeds that list it, and none for the third.
        self.assertIn('<path class="ink" d="M6 26v5M18 26v5"/><path d="M14 -7h8l-4 6z"/>', text)
        self.assertNotIn('class="loud"', text)
        # A number that nobody counted is no 0 and takes no room, and one group is compared with no other.
        self.assertEqual(
            re.findall(r'<text x="\d+" y="\d+">(.*?)</text>', text), ["250", "seeds 1 to 3"]
        )
        self.assertNotIn("Side by side", text)

    def test_rows_that_are_worth_it(self):
        """What has few of the accesses has no row, unless it is the first one of its group."""
        for accesses, names in ((79_000, {0, 1, 2}), (81_000, {0, 1}), (500_000, {0})):
            observations = Observations()
            observations.runs = [RunSummary(0, 1, "exit 0", 9, accesses, 1, 1, 1, 1)]
            for at, misses in enumerate((90, 81, 80)):
                counts = [SeedCounts(1, None, misses)]
                observations.lines[observed(0, at)] = {(f"object{at}", 0): 1}, counts
            text = self.page(observations, {"quantum": 3})
            shown = {it for it in range(3) if f"<tr><td>object{it}<br>" in text}
            self.assertEqual(shown, names)
            more = re.search(r"(\d+) more rows? (?:has|have) fewer than one", text)
            self.assertEqual(int(more[1]) if more else 0, 3 - len(names))

    def test_settings_and_builds_are_side_by_side(self):
        observations = Observations()
        for group, count in ((0, 120), (2, 60), (4, 30)):
            observations.add_run(group, record(1, [symbol(0x11000, count, 5)]), Memory())
        text = self.page(
            observations,
            {"quantum": 1},
            {"quantum": 10},
            {"quantum": 100},
            names=("one", "repaired", "apart"),
        )
        beside = text[text.index("Side by side") : text.index("<h2>one, quantum=1")]
        settings = ["quantum=1", "quantum=10", "quantum=100"]
        self.assertEqual(re.findall(r"<th>(.*?)</th>", beside), ["program", *settings])
        rows = [
            [text_of(it) for it in re.findall(r"(?s)<td.*?</td>", row)]
            for row in re.findall(r"(?s)<tr><td.*?</tr>", beside)
        ]
        title = "low 64-byte lines; not seen in apart"
        self.assertEqual(
            rows,
            [
                [title],
                ["one", "120 inval", "not seen", "60 inval"],
                ["repaired", "not seen", "30 inval", "not seen"],
            ],
        )
        self.assertEqual(
            re.findall(r'<path class="down" stroke-width="8" d="M0 5h(\d+)"', beside),
            ["110", "55", "28"],
        )

    def test_the_page_has_what_the_table_has(self):
        settings, names = ({"quantum": 1}, {"quantum": 10}), ("one", "repaired")
        observations = make_observations(range(40), 6, 4)
        # (the second build lacks an object)
        for group in (2, 3):
            del observations.lines[observed(group)]
        text, own = self.page(observations, *settings, names=names), campaign(
            *settings, names=names
        )
        rows = {
            (key.group, campaign_page.layout_text(key), row.object): (key, row)
            for key, found in object_rows(observations).items()
            for row in found
        }
        count = 0
        heads = [f"{name}, quantum={quantum}" for name in names for quantum in (1, 10)]
        for group, head in enumerate(heads):
            begin = text.index(f"<h2>{head}: 40 seeds")
            for cells in ROW.findall(text[begin:].split("<h2>")[1]):
                name, _, layout = cells[0].partition("<br>")
                key, row = rows.pop((group, text_of(layout), name))
                self.check_row(own, key, row, cells)
                self.check_strip(cells[4], group_objects(observations)[key][name].seeds, row)
                count += 1
        self.assertEqual((count, rows), (6 * 4 - 2 + 3 * 4, {}))
        self.check_side_by_side(text, observations)

    def check_row(self, own, key, row, cells):
        """The cells of a row have its numbers."""
        summary = row.summary
        spreads = [
            "-" if values.max is None else " / ".join(map(str, values))
            for values in (summary.false_sharing, summary.invalidations)
        ]
        self.assertEqual(
            [text_of(cell) for cell in cells[1:4]], [f"{summary.listed} of 40", *spreads]
        )
        command = view_command(own, key.group, summary.worst_seed)
        self.assertIn(f"Worst seed {summary.worst_seed}: {command}", text_of(cells[4]))

    def check_strip(self, text, seeds, row):
        """Each mark of a strip is a number of the seed."""
        wide, worst = 9, row.summary.worst_seed
        upper, lower, _, ticks, mark = re.findall(r'<path [^>]*?d="(.*?)"/>', text)
        misses = {seed: own.false_sharing for seed, own in seeds.items()}
        invalidations = {seed: own.invalidations for seed, own in seeds.items()}
        for path, numbers, high in ((upper, misses, -UP), (lower, invalidations, DOWN)):
            most = max(number or 0 for number in numbers.values())
            wanted = {
                seed * wide + wide // 2: round(high * number / most)
                for seed, number in numbers.items()
                if number
            }
            self.assertEqual(bars_of(path), wanted)
        listed = [seed for seed, number in invalidations.items() if number is not None]
        self.assertEqual(bars_of(ticks), {seed * wide + wide // 2: 5 for seed in listed})
        self.assertEqual(mark, f"M{worst * wide + wide // 2 - 4} -7h8l-4 6z")

    def check_side_by_side(self, text, observations):
        """The cells that compare groups have the greatest numbers of the table, and bars of the right
        length."""
        wanted = []
        for layout, kind in ((LAYOUT, "observed"), ((128, 0), "doubled")):
            objects = {}
            for key, rows in object_rows(observations).items():
                for row in rows if key[1:] == (layout, kind) else []:
                    objects.setdefault(row.object, []).append(row.summary)
            for summaries in objects.values():
                pairs = [(it.false_sharing.max, it.invalidations.max) for it in summaries]
                most = max((total if misses is None else misses) for misses, total in pairs)
                for misses, total in pairs:
                    own = [] if misses is None else [f"{misses} false"]
                    length = total if misses is None else misses
                    cell = " ".join([*own, f"{total} inval"])
                    wanted.append((cell, max(round(110 * length / most), 1)))
        beside = text[text.index("Side by side") : text.index("<h2>one, quantum=1")]
        cells = re.findall(r"(?s)<td data-of=\"quantum=\d+\">.*?</td>", beside)
        found = [
            (text_of(cell), int(re.search(r"M0 5h(\d+)", cell)[1]))
            for cell in cells
            if "<svg" in cell
        ]
        self.assertEqual(sorted(found), sorted(wanted))

    def test_failures_are_first(self):
        bad = record(2, [symbol(0x11000, 120, 5)])
        bad["results"]["run"]["text"] = bad["results"]["run"]["text"].replace("exit 0", "deadlock")
        call = {"call": "misses", "status": 9, "said": "predator: <no memory>"}
        bad["failed"] = [{**call, "command": "predator misses"}]
        text = self.page(observe(record(1, []), bad), {}, missing=("one/usual/1-100",))
        failures = re.findall(r'<p class="loud">(.*)</p>', text)
        command = "<code>predator view run &#39;/work/my one.elf&#39; --set seed=2</code>"
        outcome = (
            "1 of 2 runs of one, usual ended with deadlock instead of exit 0, for example seed 2:"
        )
        failed = "a call failed three times with status 9: predator: &lt;no memory&gt;"
        self.assertEqual(
            failures,
            [
                f"{outcome} {command}",
                f"{failed} <code>predator misses</code>",
                "job one/usual/1-100 has no result",
            ],
        )
        self.assertLess(text.index('class="loud"'), text.index("<table"))
        title = (
            "1 of 2 runs didn&#39;t end with exit 0; low of one, usual is contended in 1 of 2 seeds"
        )
        self.assertIn(f"<h1>{title}; worst is seed 2, with 120 invalidations</h1>", text)

    def test_pages_without_a_contended_object(self):
        text = self.page(observe(record(1, [])), {})
        self.assertIn("<h1>No object is contended in 1 run</h1>", text)
        text = self.page(Observations(), {}, missing=("one/usual/1-100",))
        self.assertIn("<h1>No run has a result</h1>", text)
        self.assertLess(text.index("job one/usual/1-100 has no result"), text.index("0 runs"))
        self.assertNotIn("<svg", text)

    def test_one_run(self):
        text = self.page(observe(record(7, [symbol(0x11000, 110, 5)])), {})
        title = (
            "low of one, usual is contended in 1 of 1 seed; worst is seed 7, with 110 invalidations"
        )
        self.assertIn(f"<h1>{title}</h1>", text)
        self.assertIn("<h2>one, usual: 1 seed</h2>", text)
        self.assertIn(">seed 7</text>", text)

    def test_an_object_of_predicted_lines_alone(self):
        observations = make_observations(range(4), 0, 1)
        key = RowKey(0, (128, 0), "doubled"), AddressKey("address", 0)
        observations.lines[key] = {("low", 0): 1}, [SeedCounts(2, 1300, None)]
        title = "low of one, usual is contended on a predicted line (doubled) in 1 of 4 seeds"
        self.assertIn(
            f"<h1>{title}; worst is seed 2, with 1,300 invalidations</h1>",
            self.page(observations, {}),
        )

    def test_names_that_are_markup(self):
        name = "<b>&\"'\x1b[31m\u202e"
        observations = observe(record(1, []))
        for group in (0, 1):
            observations.lines[observed(group)] = {(name, 0): 1}, [SeedCounts(1, 200, 3)]
        observations.runs.append(RunSummary(1, 1, name, 9, 9, 1, 1, 1, 1))
        text = self.page(observations, {name: 1}, {name: 2})
        self.assertEqual(
            ("<b>&" in text, re.findall("[\x00-\x08\x0b-\x1f\u202e]", text)), (False, [])
        )
        name = "[^<]*&lt;b&gt;&amp;[^<]*" + re.escape("\\x1b[31m\\u202e")
        for tag in ("<h1>", "<h2>", "<td", "<title>", 'class="loud">', "<code>", 'data-of="'):
            self.assertRegex(text, re.escape(tag) + name, tag)

    def test_a_hundred_thousand_runs(self):
        observations, seeds = Observations(), range(1, 10001)
        for group in range(10):
            observations.runs += exit_runs(group, seeds)
            for at in range(17):
                counts = []
                for seed in seeds:
                    total = None if seed % 7 == 0 else 100 + seed * at % 977
                    counts.append(SeedCounts(seed, total, seed * 31 % 1009))
                name = f"object{at}" + "x" * 1000
                observations.lines[observed(group, at)] = {(name, 0): 1}, counts
        text = self.page(observations, *({"quantum": it + 1} for it in range(10)))
        self.assertEqual(text.count('<svg class="strip"'), campaign_page.MAX_STRIPS)
        self.assertEqual(text.count('<svg class="beside"'), campaign_page.MAX_SETTINGS * 17)
        left = 10 - campaign_page.MAX_SETTINGS
        self.assertIn(f"Not shown: 0 more objects and {left} more settings.", text)
        self.assertIn(f"objects.tsv has {170 - campaign_page.MAX_STRIPS} more rows.", text)
        self.assertIn("80 seeds a column", text)
        self.assertLess(len(text.encode()), 2_000_000)

    def test_the_worst_of_many_objects_are_drawn(self):
        observations = Observations()
        observations.runs += [*exit_runs(0, [1]), *exit_runs(1, [1])]
        for at in range(20000):
            counts = [SeedCounts(1, 100, at + 1)]
            observations.lines[observed(0, at)] = {(f"object{at}", 0): 1}, counts
        text = self.page(observations, {"quantum": 1}, {"quantum": 2})
        drawn = re.findall(r"<tr><td>(object\d+)<br>", text)
        strips = campaign_page.MAX_STRIPS
        self.assertEqual(drawn, [f"object{19999 - it}" for it in range(strips)])
        left = 20000 - campaign_page.MAX_OBJECTS
        self.assertIn(f"Not shown: {left:,} more objects and 0 more settings.", text)
        self.assertIn(f"objects.tsv has {20000 - strips:,} more rows.", text)
        self.assertIn("with 20,000 false-sharing misses; 19,999 more objects contended</h1>", text)


class Strips(unittest.TestCase):
    def test_columns(self):
        self.assertEqual([list(it) for it in spread(3)], [[0], [1], [2]])
        found = spread(1001)
        self.assertEqual((len(found), found[0].start, found[-1].stop), (COLUMNS, 0, 1001))

    def test_each_column_shows_its_greatest(self):
        picture = strip([0, 50, 100, None], [None, 20, 10, 20], 2)
        self.assertEqual(picture["upper"], "M18 36v-18M30 36v-36")
        self.assertEqual(picture["lower"], "M18 36v24M30 36v12M42 36v24")
        self.assertEqual(
            (picture["ticks"], picture["mark"], picture["most"]),
            ("M18 62v5M30 62v5M42 62v5", 30, [100, 20]),
        )
        # (a small number is visible)
        self.assertIn("v-1M", strip([1, 1000], [None, None], 0)["upper"])
        half = strip([1] * 2 * COLUMNS, [None, 3] * COLUMNS, 0)
        self.assertTrue(half["ticks"].startswith("M1 62v2M4 62v2"))
        # (a row without a number takes no room)
        alone = strip([None, None], [None, 5], 1)
        self.assertEqual(
            (alone["upper"], alone["lower"], alone["middle"], alone["most"]),
            ("", "M18 0v24", 0, [None, 5]),
        )


if __name__ == "__main__":
    unittest.main()
