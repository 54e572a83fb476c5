"""The files that view writes: the page in a browser, JSON by its schema, SARIF; large reports; and the program itself, where it is
built."""

import json
import os
import re
import shutil
import struct
import subprocess
import sys
import tempfile
import unittest
import warnings

from calling import HERE, PROGRAM, built, has, joined, view

with warnings.catch_warnings():
    warnings.simplefilter("ignore")
    import jsonschema

BROWSER = shutil.which("chromium")


def schema(*path):
    with open(
        os.path.join(HERE, *(path or ("..", "output", "schema.json"))), encoding="utf-8"
    ) as file:
        return json.load(file)


def sarif(path):
    """The run of a SARIF file, which is judged by what the public schema asks, and by what that leaves to its text."""
    with open(path, encoding="utf-8") as file:
        found = json.load(file)
    jsonschema.validate(found, schema("sarif.json"), cls=jsonschema.Draft202012Validator)
    run = found["runs"][0]
    ids = [it["id"] for it in run["tool"]["driver"]["rules"]]
    assert len(ids) == len(set(ids))
    assert {it["ruleId"] for it in run["results"]} <= set(ids)
    return run


def places(result):
    """The files and lines of a result."""
    found = [
        location["physicalLocation"]
        for location in result["locations"] + result.get("relatedLocations", [])
    ]
    return [(it["artifactLocation"]["uri"], it["region"]["startLine"]) for it in found]


def tried(false_sharing, true_sharing, cold, invalidations):
    """The numbers of a trial, as JSON has them."""
    return {
        "false_sharing": false_sharing,
        "true_sharing": true_sharing,
        "cold": cold,
        "invalidations": invalidations,
    }


class Files(unittest.TestCase):
    @classmethod
    def setUpClass(cls):
        cls.folder = tempfile.mkdtemp()
        cls.paths = {it: os.path.join(cls.folder, f"page.{it}") for it in ("json", "sarif", "html")}
        words = [f"--{it}={path}" for it, path in cls.paths.items()]
        cls.status, _, cls.said = view(
            "run", built("odd.elf"), "--set", "quantum=3,report=1", *words, cwd=HERE
        )

    @classmethod
    def tearDownClass(cls):
        shutil.rmtree(cls.folder)

    def read(self, kind):
        with open(self.paths[kind], encoding="utf-8") as file:
            return file.read()

    def test_json(self):
        self.assertEqual((self.status, self.said), (0, ""))
        found = json.loads(self.read("json"))
        jsonschema.Draft202012Validator.check_schema(schema())
        jsonschema.validate(found, schema(), cls=jsonschema.Draft202012Validator)
        self.assertEqual([it["kind"] for it in found["objects"]], ["symbol", "symbol", "symbol"])
        self.assertIn(("own", "symbol own"), [(it["name"], it["key"]) for it in found["objects"]])
        self.assertEqual(found["objects"][0]["declared"], {"file": "odd.c", "line": 22})
        self.assertEqual(
            sum(it["false_sharing"] for it in found["objects"]), found["total"]["false_sharing"]
        )
        found["more"] = 1
        with self.assertRaises(jsonschema.ValidationError):
            jsonschema.validate(found, schema(), cls=jsonschema.Draft202012Validator)

    def test_the_former_version_of_json(self):
        former = schema("..", "output", "schema-1.json")
        jsonschema.Draft202012Validator.check_schema(former)
        with tempfile.TemporaryDirectory() as folder:
            path = os.path.join(folder, "json")
            # (with what is null in the first record: explained lines, repairs, predicted lines, the run at quantum 1)
            for name, more in (("odd", {}), ("apart", {}), ("ring", {"STAND_IN_HAS": "move"})):
                words = ("--set", "quantum=3", "--latency", "140", "--predicted", "--json", path)
                found = []
                for version in ("1", "2"):
                    view("run", built(f"{name}.elf"), *words, "--json-version", version, **more)
                    with open(path, encoding="utf-8") as file:
                        found.append(json.load(file))
                one, two = found
                jsonschema.validate(one, former, cls=jsonschema.Draft202012Validator)
                jsonschema.validate(two, schema(), cls=jsonschema.Draft202012Validator)
                self.assertEqual(list(one), former["required"])
                for obj in one["objects"]:
                    self.assertEqual(
                        sorted(obj), sorted([*former["$defs"]["object"]["required"], "repaired"])
                    )
                numbers = [
                    (obj["useless"], obj["useful"], obj["count"], obj["beside"], len(obj["fights"]))
                    for obj in one["objects"]
                ]
                wanted = [
                    (
                        obj["false_sharing"],
                        obj["true_sharing"],
                        obj["reported_invalidations"],
                        obj["neighbours"],
                        len(obj["conflicts"]),
                    )
                    for obj in two["objects"]
                ]
                self.assertEqual(numbers, wanted)
            self.assertEqual(
                one["objects"][0]["repaired"], {"useless": 44, "useful": 314, "count": 359}
            )
            self.assertEqual(
                two["objects"][0]["tried"],
                {
                    "before": {**tried(342, 314, 9, 658), "bytes": 64},
                    "after": {**tried(44, 314, 9, 359), "bytes": 256},
                    "accesses": 2108,
                },
            )
            self.assertEqual(one["time"]["by"], "steps")
            self.assertEqual(
                one["time"]["alternating"]["useless"], two["time"]["quantum_1"]["false_sharing"]
            )

    def test_sarif(self):
        jsonschema.Draft202012Validator.check_schema(schema("sarif.json"))
        run = sarif(self.paths["sarif"])
        self.assertFalse(run["invocations"][0]["executionSuccessful"])
        self.assertEqual({it["level"] for it in run["results"]}, {"warning"})
        # (from this folder on, where the source is below it)
        for result in run["results"]:
            for uri, line in places(result):
                self.assertTrue(os.path.isfile(os.path.join(HERE, uri)), uri)
                self.assertIn(line, range(1, 61))
        self.assertIn(("programs/odd.c", 22), places(run["results"][0]))

    def test_page(self):
        text = self.read("html")
        self.assertNotIn("<script", text)
        self.assertNotRegex(text, r"""(src|href)=(?!["']#)""")
        self.assertNotIn("http:", text)
        self.assertIn("parts&lt;script&gt;alert(1)&lt;/script&gt;", text)
        self.assertIn("The run did not end with exit 0: trap", text)
        self.assertIn("parts.high++;", text)

    def test_names_that_are_no_text(self):
        path = os.path.join(self.folder.encode(), b"r\xff<b>&'\"")
        with open(path, "w", encoding="ascii") as file:
            file.write(
                "predator report 1\noutcome exit 0\nsteps 0\naccesses 9\nlayout 64 0\nthresholds 16 64 100\nlines 1\n"
            )
            file.write(
                "line observed 0x00001000 64 start 0 count 200 verdict false\nobject symbol <i>&\\x00\"' 0x00001000 8\nend\n"
            )
        page, report = os.path.join(self.folder, "other.html"), os.fsdecode(path)
        status, text, said = view(
            report, "--html", page, f"--json={page}.json", f"--sarif={page}.sarif"
        )
        self.assertEqual((status, said), (0, ""))
        self.assertIn("<i>&\\x00\"'", text)
        self.assertEqual([places(it) for it in sarif(f"{page}.sarif")["results"]], [[]])
        with open(page, encoding="utf-8") as file:
            text = file.read()
        self.assertIn("<h1>r\\udcff&lt;b&gt;&amp;&#39;&#34;: ", text)
        self.assertIn("&lt;i&gt;&amp;\\x00&#34;&#39;", text)
        self.assertNotIn("<i>", text)

    @unittest.skipUnless(BROWSER, "chromium isn't installed")
    def test_page_in_a_browser(self):
        browser = [
            BROWSER,
            "--headless",
            "--no-sandbox",
            "--disable-gpu",
            "--hide-scrollbars",
            f"--user-data-dir={self.folder}/browser",
        ]
        page, picture = "file://" + self.paths["html"], os.path.join(self.folder, "page.png")
        tree = subprocess.run(
            [*browser, "--dump-dom", page], capture_output=True, encoding="utf-8", timeout=50
        ).stdout
        cells = re.findall(r'<div class="who"[^>]*>(.)(?:<small>\w+</small>)?</div>', tree)
        self.assertEqual("".join(cells), "ABBAABAB")
        self.assertIn('<div class="field">.low, .middle, .high</div>', tree)
        subprocess.run(
            [*browser, "--window-size=1100,900", f"--screenshot={picture}", page],
            capture_output=True,
            timeout=50,
        )
        with open(picture, "rb") as file:
            self.assertEqual(struct.unpack(">II", file.read(24)[16:24]), (1100, 900))
        self.assertGreater(os.path.getsize(picture), 30000)


class Predicted(unittest.TestCase):
    def test_shown_where_more_would_be_missed(self):
        with tempfile.TemporaryDirectory() as folder:
            path = os.path.join(folder, "json")
            words = ("--json", path, "--sarif", f"{path}.sarif", "--predicted")
            _, text, _ = view(
                "run",
                built("apart.elf"),
                "--set",
                "quantum=3",
                "--explain",
                "0",
                *words,
                cwd=folder,
            )
            with open(path, encoding="utf-8") as file:
                found = json.load(file)["predicted"]
            self.assertTrue(found)
            for line in found:
                more = line["false_sharing"] > line["observed_false_sharing"]
                self.assertEqual(line["shown"], more and not line["reason"])
            self.assertEqual({it["kind"] for it in found if it["shown"]}, {"doubled"})
            self.assertTrue(
                any("the data's alignment rules it out" in it["reason"] for it in found)
            )
            self.assertIn(
                "with 128-byte lines at 0x00011000, 1,189 false-sharing misses instead of 0", text
            )
            results = [
                result
                for result in sarif(f"{path}.sarif")["results"]
                if result["ruleId"] == "predicted-sharing"
            ]
            self.assertTrue(results)
            for result in results:
                self.assertEqual([uri for uri, _ in places(result)], ["file://" + built("apart.c")])


# Work of the same kind as view's with a report: a pattern for each row, its numbers, and an object that keeps them.
READS = r"""
import collections, re, sys
Word = collections.namedtuple("Word", "addr reads writes")
with open(sys.argv[1], encoding="latin-1") as file:
    rows = re.finditer(r"word (0x[0-9a-f]{8,16}) reads (\d{1,20}) writes (\d{1,20}) (?:hart \d{1,3}|many)\n", file.read())
print(len({it.addr: it for it in (Word(int(it[1], 16), int(it[2]), int(it[3])) for it in rows)}))
"""
# So many times as long may view take at most. (It takes twice as long.)
TIMES = 4
# What view does with it; its folder is the first word.
SHOWS = "import sys; sys.argv[0:1] = []; sys.path.insert(0, sys.argv[0]); from view import main; main.main(sys.argv[1:])"


class Ran:
    """A script's run: the seconds of a processor that its own code took, the most memory that it had, in KiB, and what it printed."""

    def __init__(self, code, *words):
        with tempfile.TemporaryFile("w+", encoding="utf-8") as out:
            child = subprocess.Popen([sys.executable, "-c", code, *words], stdout=out)
            _, status, used = os.wait4(child.pid, 0)
            child.returncode = os.waitstatus_to_exitcode(status)
            out.seek(0)
            self.seconds, self.memory, self.text = used.ru_utime, used.ru_maxrss, out.read()


class Large(unittest.TestCase):
    def write(self, path, lines):
        """A report of so many lines: most are of one array, one in eight has two blocks of some call sites that came and went."""
        with open(path, "w", encoding="ascii") as file:
            file.write(
                f"predator report 1\noutcome exit 0\nsteps 5\naccesses 5\nlayout 64 0\nthresholds 16 64 100\nlines {lines}\n"
            )
            for at in range(lines):
                base = 0x10000 + 64 * at
                rows = [
                    f"line observed 0x{base:08x} 64 start 5 count {10**6 - at + 100} verdict false"
                ]
                if at % 8:
                    rows.append(f"object symbol table 0x00010000 {64 * lines}")
                else:
                    for number in range(2):
                        rows.append(
                            f"object block 0x{base + 32 * number:08x} 32 born {at} died {at + 9}"
                        )
                        rows += [
                            f"site 0x{0x10400 + 4 * (number + at // 8 % 10):08x} work",
                            "site 0x00010ab8 begin",
                        ]
                rows += [
                    f"word 0x{base + 32 * number:08x} reads 10 writes {number + 1} hart {number}"
                    for number in range(2)
                ]
                file.write("\n".join(rows) + "\n")
            file.write("end\n")

    def test_a_million_lines(self):
        lines = 10**6
        with tempfile.TemporaryDirectory() as folder:
            path = os.path.join(folder, "report")
            self.write(path, lines)
            # (a slow or busy processor makes both take longer; a second try is for work that came between one and the other)
            for _ in range(2):
                read, shown = Ran(READS, path), Ran(SHOWS, os.path.join(HERE, "..", ".."), path)
                self.assertEqual(read.text, f"{2 * lines}\n")
                self.assertIn(f"{7 * lines // 8:,}  table", shown.text)
                self.assertIn(
                    "block made in work < begin, by 0x00010408 (25,000 blocks)", joined(shown.text)
                )
                self.assertLess(shown.memory, 1 << 20)
                if shown.seconds < TIMES * read.seconds:
                    break
            self.assertLess(shown.seconds, TIMES * read.seconds)


@unittest.skipUnless(has(PROGRAM, "misses"), "the program isn't built, or has no misses")
class Program(unittest.TestCase):
    def seen(self, folder, name, **more):
        """The status of a run, the screen, and what is found."""
        path = os.path.join(folder, "json")
        explains = [] if has(PROGRAM, "explain") else ["--explain", "0"]
        words = (
            "run",
            built(f"{name}.elf"),
            "--set",
            "quantum=3",
            "--words",
            "--json",
            path,
            *explains,
        )
        status, text, _ = view(*words, **more)
        with open(path, encoding="utf-8") as file:
            return status, text, json.load(file)

    def test_shows_what_the_stand_in_shows(self):
        with tempfile.TemporaryDirectory() as folder:
            for name in ("ring", "arena", "shards", "anderson", "flags", "pieces", "odd", "apart"):
                # (repairs that are tried take the stand-in long; what is counted by bytes wants a trace, as they do)
                is_tried = name in ("shards", "flags") and has(PROGRAM, "move")
                (one, text, found), (other, other_text, wanted) = (
                    self.seen(folder, name, **more)
                    for more in ({"STAND_IN_HAS": "move" * is_tried}, {"program": PROGRAM})
                )
                for obj in (
                    (*found["objects"], *wanted["objects"])
                    if not is_tried and has(PROGRAM, "move")
                    else ()
                ):
                    obj["fix"] = obj["tried"] = obj["who"] = None
                if is_tried:
                    self.assertEqual(text, other_text)
                if is_tried and name == "shards":
                    self.assertIn(
                        "tried misses 2,153 → 6 (false 2,147 → 0, true 0 → 0, cold 6 → 6)",
                        " ".join(other_text.split()),
                    )
                by_name = [
                    sorted(record.pop("objects"), key=lambda it: it["key"])
                    for record in (found, wanted)
                ]
                self.assertEqual(*by_name, name)
                notes = [
                    [row for row in record.pop("notes") if not row.startswith("all fixes together")]
                    for record in (found, wanted)
                ]
                self.assertEqual((one, found, notes[0]), (other, wanted, notes[1]), name)


if __name__ == "__main__":
    unittest.main()
