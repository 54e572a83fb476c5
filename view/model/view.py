"""All that a call of view has found: the data of its outputs."""

import concurrent.futures
import contextlib
import functools
import os
import re
from collections import Counter
from typing import TYPE_CHECKING, Mapping, Sequence, cast

from view.repairs import advice
from view.reading.calls import EXPLAIN, Call
from view.model.lasting_keys import make_lasting_keys
from view.model.object_keys import Key, MemoryKey, SymbolKey
from view.model.instruction_pairs import MemoryEffect, count_kinds
from view.model.foreign_objects import is_foreign
from view.model.object_fixes import ObjectFixes
from view.names.demangling import short_name
from view.names.naming import Naming, address_text
from view.model.objects import DataObject, ObjectLine, WordUse, group_lines, word_uses, worst_word
from view.model.stack_places import StackPlace
from view.model.stack_overflow import Overflow, last_bytes_of_file, last_bytes_of_run, find_overflow
from view.reading.passes import Layout, Passes, first_readers, can_blame, is_brief
from view.model.predicted_lines import PredictedLine, judge_predicted_lines, choose_layouts
from view.reading.engine import (
    PassResult,
    Predator,
    Refused,
    misses_reader,
    setting_value,
)
from view.reading.reports import (
    Blame,
    Block,
    Line,
    Misses,
    InstructionPair,
    Placement,
    Report,
    Symbol,
    LineInvalidations,
)
from view.names.unnamed_memory import name_by_instructions, go_runtime_keys, join_same_names
from view.model.miss_rates import Worth

if TYPE_CHECKING:
    from view.model.byte_sharing import SharingMisses
    from view.reading.trace_files import WordUses
    from view.repairs.trial_results import Trial

# An object with fewer misses than one in so many accesses has no row, but for the first one.
MIN_ACCESS_SHARE_DIVISOR = 1000
# A miss takes about a hundred times as long as an access: those of one in so many take a hundredth of the time.
RARE_MISS_DIVISOR = 10_000
# The file and the line where something is declared or made.
Declared = tuple[str, int]


class ObjectDetails:
    """One object as it is shown: its words, its explained line, the fix, and what trying that came to."""

    def __init__(
        self,
        obj: DataObject,
        words: list[WordUse],
        explained: LineInvalidations | None,
        fix: str,
        tried: str,
        declared: Declared | None,
    ) -> None:
        self.obj, self.words, self.explained, self.fix, self.tried, self.declared = (
            obj,
            words,
            explained,
            fix,
            tried,
            declared,
        )

    def worst(self) -> WordUse | None:
        return worst_word([it for it in self.words if it.key == self.obj.key])

    def conflicts(self) -> list[InstructionPair]:
        """The pairs of instructions that conflict on the object's worst line, the most frequent false sharing first."""
        pairs = self.explained.pairs if self.explained else []
        return sorted(pairs, key=lambda pair: (pair.same_word_times - pair.times, -pair.times))

    def worst_conflict(self) -> InstructionPair | None:
        """The pair whose false sharing of the object's worst line is most frequent, or none."""
        return next(iter(self.conflicts()), None)


class View:
    objects: list[DataObject]
    objects_by_key: dict[Key, DataObject]
    lasting_keys: dict[Key, str]
    predicted: list[PredictedLine]

    def __init__(self, call: Call, report: Report, naming: Naming) -> None:
        self.call, self.report, self.naming = call, report, naming
        # Of a filtered trace what it says of itself, or none; and whether a whole one would show sharing by bytes that may matter.
        self.filtered, self.has_unknown_bytes = call.filtered, False
        self.misses: Misses | None = None
        self.word_misses: Misses | None = None
        # How many misses are a thread's first access of a line in a part, where several parts of a run were recorded.
        self.first_misses: int | None = None
        self.every_line: Report | None = None
        self.misses_by_layout: dict[Layout, Misses] = {}
        self.notes: list[str] = []
        # Who uses which words of the trace, once that was read, or none.
        self.word_uses: WordUses | None = None
        self.has_read_uses = False
        # The same program at a fine quantum, or none.
        self.fine: View | None = None
        # How many misses of a line are false sharing by bytes and true sharing by words.
        self.byte_changes: dict[int, int] = {}
        self.blame: Blame | None = None
        self.invalidations_by_line: dict[int, LineInvalidations] = {}
        self.placements: dict[Key, Placement] = {}
        # (none where no repair can be tried)
        self.trials: dict[Key, Trial] | None = None
        self.details_by_key: dict[Key, ObjectDetails] = {}
        # Where variables on stacks are, by their addresses.
        self.stack_places: dict[int, StackPlace] = {}
        # Objects of the C library, and of Go's runtime.
        self.foreign_keys: set[Key] = set()
        self.runtime_keys: set[Key] = set()
        self.missing_harts = ""
        self.label_counts: Counter[str] | None = None
        self.overflow: Overflow | None = None
        # (what it may be worth in time, once that is looked for)
        self.worth = Worth(self, None)
        self.effects: dict[int, MemoryEffect] = {}

    @property
    def accesses(self) -> int:
        """How many accesses the program made. A filtered trace has fewer."""
        return self.filtered.whole if self.filtered else self.report.accesses

    def part_begins(self) -> list[int]:
        """Behind how many accesses a recorder began or went on; none where it recorded the whole run."""
        return list(getattr(getattr(self.naming.program, "map", None), "resumes", ()))

    def count_misses(self, predator: Predator | None, passes: Passes | None) -> None:
        """Counts the misses, under the report's layout, for each word, and under the layouts of predicted lines."""
        if predator is None:
            self.notes.append(
                "a report has no misses: use `predator view run` or `predator view replay` to count"
                " them"
            )
            return
        if not predator.has_command("misses"):
            self.notes.append("this predator has no command `misses`, so misses are unknown")
            return
        if self.call.reads_trace_once():
            self.notes.append(
                "a pipe can be read only once, so misses and fixes are unknown: write the trace to"
                " a file"
            )
            return
        brief, foreseen = is_brief(self.call), self.predicted_layouts()
        asked = first_readers(
            *((self.report.size, self.report.offset), can_blame(self.call, predator), brief),
            self.filtered is not None,
        )
        readers = [*asked.values(), *map(misses_reader, foreseen)]
        try:
            if passes is not None and self.call.trace_file():
                counted = passes.results(readers)
            else:
                counted = predator.read_trace_of_run(
                    [*self.call.rerun_words(), *self.call.guest_words], readers, self.call.run_trace
                )
        except Refused as refused:
            self.notes.append(f"misses are unknown: {refused}")
            return
        if any(it.accesses != self.report.accesses for it in counted):
            self.notes.append(
                "the trace is only a part of what the report counts, so misses are unknown"
            )
            return
        self.note_missing_harts(predator)
        self.take_counts(dict(zip(asked, counted)))
        self.misses_by_layout = dict(zip(foreseen, cast(list[Misses], counted[len(asked) :])))
        if brief:
            self.notes.append(
                "the trace is long: fixes were tried on its first part, predicted lines weren't"
                " counted; --words does both in full"
            )

    def take_counts(self, results: Mapping[str, PassResult]) -> None:
        """Takes what was counted of the trace, by what it is."""
        self.word_misses, self.misses = cast("Misses | None", results.get("words")), cast(
            Misses, results["lines"]
        )
        self.every_line, self.blame = cast("Report | None", results.get("each")), cast(
            "Blame | None", results.get("blame")
        )
        if self.filtered is not None:
            # (a report of each line that was ever invalidated)
            self.every_line = self.report

    def note_bytes(self, counted: "Mapping[int, SharingMisses]") -> None:
        """Takes the misses of some lines as they are by bytes. By words and by bytes a line has as many."""
        if self.misses is None:
            return
        for base, own in counted.items():
            line = self.misses.lines[base]
            change = own.useless - line.useless
            if change > 0 and own.useless + own.useful == line.useless + line.useful:
                self.byte_changes[base] = change
                line.useless, line.useful = own.useless, own.useful
                self.misses.total["useless"] += change
                self.misses.total["useful"] -= change
        if self.byte_changes:
            much = sum(self.byte_changes.values())
            self.notes.append(
                f"{much:,} of the false-sharing misses are so by bytes alone: threads use different"
                " bytes of 4-byte words"
            )

    def predicted_layouts(self) -> list[Layout]:
        """The layouts of the predicted lines whose misses are counted."""
        options = self.call.options
        return (
            []
            if "no-predicted" in options or is_brief(self.call)
            else choose_layouts(self.report, self.naming, "predicted" in options)
        )

    def note_missing_harts(self, predator: Predator) -> None:
        """Notes that a thread never ran since all harts were in use."""
        found = re.search(
            "^predator: (?:no hart was free for |the last .*could not start)",
            predator.stderr_text,
            re.MULTILINE,
        )
        if found and self.call.action == "run":
            harts = setting_value(self.call.settings_words(), "harts")
            more = f"use `--set harts={min(2 * harts, 256)}`"
            self.missing_harts = (
                f"the last thread never ran, because all {harts} harts were in use: {more}"
            )
            self.notes.append(self.missing_harts)

    def look_for_overflow(self, predator: Predator | None) -> None:
        """Looks, where the run didn't end well, whether a hart ran out of its stack."""
        if (
            predator is None
            or self.report.ended_well()
            or self.filtered is not None
            or not self.naming.memory.stack_bytes
            or self.call.reads_trace_once()
        ):
            return
        trace = self.call.trace_file()
        with contextlib.suppress(Refused, OSError):
            last = (
                last_bytes_of_file(trace)
                if trace
                else last_bytes_of_run(predator, [*self.call.rerun_words(), *self.call.guest_words])
            )
            self.overflow = find_overflow(last, self.naming.memory)

    def place_objects(self, predator: Predator | None, objects: Sequence[DataObject]) -> None:
        """Has a placement of the first objects counted, where the trace is a file that can be read again and again."""
        trace, most = self.call.trace_file(), self.call.number_option("explain", EXPLAIN)
        if (
            predator is None
            or trace is None
            or self.filtered is not None
            or not predator.has_command("place")
            or is_brief(self.call)
        ):
            return
        # (what repairs were counted for, or what is to be left as it is, has no use of it)
        worth = [
            obj
            for obj in objects[:most]
            if not self.decisive_trial(obj) and not self.is_little(obj)
        ]
        named = [(it, name) for it in worth if (name := it.name_to_place()) is not None]
        placed_at = functools.partial(predator.find_placement, trace, size=self.report.size)
        with concurrent.futures.ThreadPoolExecutor(max_workers=min(4, os.cpu_count() or 1)) as pool:
            for (obj, _), placed in zip(named, pool.map(placed_at, [name for _, name in named])):
                # (of several variables of one name it takes the first)
                if placed and obj.example and placed.addr == obj.example.addr:
                    self.placements[obj.key] = placed

    def group_by_objects(self) -> None:
        """Puts the lines together by objects."""
        sources = [one for one in (self.report, self.misses) if one]
        self.naming.learn_symbols("\n".join(one.text for one in sources))
        self.naming.find_lines({it for one in sources for it in one.sites()})
        self.objects, self.objects_by_key = group_lines(
            *(self.report, self.misses, self.naming, self.every_line),
            # (a report of a filtered trace has no thresholds, and lists lines without a miss)
            is_listed=self.filtered is None or self.misses is None,
            by_word=self.word_misses,
        )
        for obj in self.objects_by_key.values():
            obj.name = self.naming.object_name(obj.key, obj.example)
            if isinstance(obj.key, SymbolKey):
                place = self.stack_places.get(obj.key.addr)
                obj.note = place.note(self.naming.memory) if place else ""
        self.rank_objects()
        if self.blame:
            name_by_instructions(self.objects, self.blame, self.naming)
            self.runtime_keys = go_runtime_keys(self.objects, self.blame, self.naming)
            self.objects_by_key.update(join_same_names(self.objects))
            self.objects = sorted(
                dict.fromkeys(self.objects_by_key[it.key] for it in self.objects),
                key=DataObject.rank,
            )
        self.lasting_keys = make_lasting_keys(
            dict.fromkeys(self.objects_by_key.values()), self.naming
        )
        self.predicted = (
            []
            if "no-predicted" in self.call.options
            else judge_predicted_lines(self.report, self.misses, self.misses_by_layout, self.naming)
        )
        for line in self.predicted:
            for key, example in line.keys.items():
                if key not in self.objects_by_key:
                    self.objects_by_key[key] = DataObject(key, example)
                    self.objects_by_key[key].name = self.naming.object_name(key, example)

    def rank_objects(self) -> None:
        """Puts the objects in the order of the numbers that their rows show."""
        self.objects.sort(key=DataObject.rank)
        self.foreign_keys = {it.key for it in self.objects if is_foreign(it, self.naming)}

    def chosen_objects(self) -> list[DataObject]:
        """The objects that the call wants to see."""
        return [it for it in self.objects if self.is_named(it)]

    def listed_objects(self) -> list[DataObject]:
        """Those of them that have a row each."""
        folded = {it.key for it in self.folded_objects()}
        return [it for it in self.chosen_objects() if it.key not in folded]

    def folded_objects(self) -> list[DataObject]:
        """The objects of the C library and of Go's runtime, which have one row, unless the call asks for them."""
        is_asked = "library" in self.call.options or "object" in self.call.options
        folded = self.foreign_keys | self.runtime_keys
        return [] if is_asked else [it for it in self.objects if it.key in folded]

    def chosen_predictions(self) -> list[PredictedLine]:
        """The predicted lines of the objects that the call wants to see."""
        name = self.call.options.get("object")
        return [
            line
            for line in self.predicted
            if name is None
            or name
            in {self.objects_by_key[key].name for key in line.keys if key in self.objects_by_key}
        ]

    def label(self, obj: DataObject) -> str:
        """An object's name, and what distinguishes it from others of that name: the line that an inlined function was called from, or an
        address."""
        if self.label_counts is None:
            self.label_counts = Counter(
                name
                for other in dict.fromkeys(self.objects_by_key.values())
                for name in {other.name, other.name + self.caller(other)}
            )
        if self.label_counts[obj.name] < 2:
            return obj.name
        if isinstance(obj.example, Block) and obj.example.sites:
            own = obj.name + self.caller(obj)
            return (
                own
                if self.label_counts[own] == 1
                else f"{obj.name}, by {self.distinguishing_site(obj, obj.example)}"
            )
        if isinstance(obj.key, (SymbolKey, MemoryKey)):
            return (
                f"{obj.name}, at"
                f" {address_text(obj.key.addr if isinstance(obj.key, SymbolKey) else obj.key.page)}"
            )
        return obj.name

    def distinguishing_site(self, obj: DataObject, block: Block) -> str:
        """The first line among a block's callers that no other object of its name has there, or else an address."""
        chain = self.naming.own_sites(block.sites)
        same = [
            other.example
            for other in dict.fromkeys(self.objects_by_key.values())
            if other.name == obj.name and other is not obj
        ]
        others = [
            self.naming.own_sites(example.sites)
            for example in same
            if isinstance(example, Block) and example.sites
        ]
        for at, site in enumerate(chain):
            line = self.naming.site_line(site)
            if line and all(line != self.naming.site_line(it[at]) for it in others if at < len(it)):
                return line
        return address_text(chain[0].addr)

    def caller(self, obj: DataObject) -> str:
        """Of blocks that an inlined function makes the line that it was called from, as a part of their label."""
        if not isinstance(obj.example, Block) or not obj.example.sites or not self.naming.sources:
            return ""
        lines = [
            frame.short()
            for frame in self.naming.own_frames(self.naming.own_sites(obj.example.sites)[0].addr)
            if frame.short()
        ]
        return f", from {lines[-1]}" if len(lines) > 1 else ""

    def is_named(self, obj: DataObject) -> bool:
        name = self.call.options.get("object")
        return name is None or name in self.names_of(obj)

    def name_of(self, key: Key) -> str:
        return self.objects_by_key[key].name

    def names_of(self, obj: DataObject) -> set[str]:
        """What a call may name an object by: its own name, and those beside it."""
        parts = [obj, *(self.objects_by_key[key] for key in obj.neighbours)]
        own = {it.name for it in parts} | {
            self.naming.object_name(part.key, part.example) for part in parts
        }
        # (a variable on a stack is a part of that)
        keys = [it.key.addr for it in parts if isinstance(it.key, SymbolKey)]
        places = [self.stack_places[it] for it in keys if it in self.stack_places]
        own |= {f"stack of {self.naming.memory.owner(it.hart)}" for it in places}
        return (
            own
            | {self.naming.names.shorten(it) for it in own}
            | {it.partition(" made at ")[2].partition(" ")[0] for it in own}
        )

    def invalidation_kinds(self, obj: DataObject) -> dict[str, int] | None:
        """How many invalidations of each kind an object's worst line has, or none where it isn't explained, or the trace may not have each
        victim's last access."""
        if self.filtered is not None:
            return None
        found = self.invalidations_by_line.get(obj.worst_line().base)
        return count_kinds(found.pairs, self.effects) if found else None

    def note_unmatched_options(self) -> None:
        """Notes options that matched nothing: a type for blocks that aren't contended, and a folder without a source of the program."""
        blocks = [
            obj.example
            for obj in self.objects_by_key.values()
            if isinstance(obj.example, Block) and obj.example.sites
        ]
        sites = [self.naming.names_of_site(it) for it in blocks]
        for site in (site for site, _ in self.naming.types if not any(site in it for it in sites)):
            first = [self.naming.own_sites(it.sites)[0] for it in blocks]
            made = sorted(
                {
                    self.naming.site_line(call_site)
                    or short_name(self.naming.function_name(call_site))
                    for call_site in first
                }
            )
            there = (
                f"contended blocks are made at {advice.listing(made)}"
                if made
                else "no block is contended"
            )
            self.notes.append(f"`--type {site}=..` matches no contended block: {there}")
        folder, sources = self.call.options.get("sources", ""), self.naming.sources
        files = (
            sorted({it.file for frames in sources.places.values() for it in frames if it.file})
            if folder and sources
            else []
        )
        if files and not any(
            os.path.isfile(os.path.join(folder, name))
            for file in files
            for name in (file, os.path.basename(file))
        ):
            self.notes.append(
                f"`--sources {folder}` has none of the program's sources"
                f" ({advice.listing(map(os.path.basename, files))})"
            )

    def details(self, obj: DataObject) -> ObjectDetails:
        """What is shown of an object."""
        if obj.key not in self.details_by_key:
            words = [
                word
                for spot in obj.worst_lines()
                for word in word_uses(spot, self.naming, self.word_misses)
            ]
            fixes = ObjectFixes(self)
            fix, tried = fixes.choose(obj, words), fixes.numbers(obj)
            explained = self.invalidations_by_line.get(obj.worst_line().base)
            self.details_by_key[obj.key] = ObjectDetails(
                obj, words, explained, fix, tried, self.declaration(obj)
            )
        return self.details_by_key[obj.key]

    def type_of(self, obj: DataObject) -> str:
        """The name of an object's type, or nothing where that isn't known."""
        program, example = self.naming.program, obj.example
        if program is None or example is None:
            return ""
        from view.names.cpp_storage import held_type
        from view.names.fields import type_name, value_or_default

        if isinstance(example, Symbol):
            variable = program.variable(example.addr)
            of = variable.type if variable else None
        else:
            block = example
            of = value_or_default(lambda: self.naming.type_of_block(block), None)
        return (
            value_or_default(lambda: type_name(held_type(of)), "").replace(" (unnamed)", "")
            if of is not None
            else ""
        )

    def invalidations_of(self, spot: ObjectLine) -> int | None:
        """The invalidations of a line: since its first write where that was counted, and else as the report lists it."""
        if self.every_line is None:
            return spot.line.count if spot.line else None
        line = self.each_lines.get(spot.base)
        return line.count if line else 0

    @functools.cached_property
    def each_lines(self) -> dict[int, Line]:
        """Each line that was ever invalidated, by its base."""
        return self.every_line.observed_by_base() if self.every_line else {}

    def invalidations(self, obj: DataObject) -> int:
        """The invalidations of all of an object's lines."""
        return sum(self.invalidations_of(it) or 0 for it in obj.lines)

    def is_minor(self, obj: DataObject) -> bool:
        """Whether an object behind the first one has hardly any misses, so that it has no row."""
        first = next(iter(self.chosen_first()), None)
        if "object" in self.call.options or self.is_clean() or first is obj or not self.misses:
            return False
        own = obj.useless + obj.useful
        return own * advice.LITTLE < self.total() or own * MIN_ACCESS_SHARE_DIVISOR < self.accesses

    def chosen_first(self) -> list[DataObject]:
        """The object of the first row, where there is one."""
        folded = {it.key for it in self.folded_objects()}
        return [it for it in self.objects if it.key not in folded][:1]

    def total(self) -> int:
        """The misses that aren't cold."""
        return self.misses.total["useless"] + self.misses.total["useful"] if self.misses else 0

    def is_clean(self) -> bool:
        """Whether so few accesses of a trace miss that no change is worth it. (Of a run the severity says that.)"""
        return not self.report.steps and 0 < self.total() * RARE_MISS_DIVISOR < self.accesses

    def is_little(self, obj: DataObject) -> bool:
        """Whether an object has so few of the misses that it isn't worth a change."""
        if self.is_clean() and "object" not in self.call.options:
            return True
        is_first = self.objects[0] is obj or "object" in self.call.options
        return not is_first and 0 < (obj.useless + obj.useful) * advice.LITTLE < self.total()

    def decisive_trial(self, obj: DataObject) -> "Trial | None":
        """The trial of an object's repairs, where that decides the fix."""
        found = (self.trials or {}).get(obj.key)
        return found if found is not None and found.is_decisive() else None

    def quantum(self) -> int:
        """The quantum of the run, or 0 where that isn't known."""
        if self.call.recorded_quantum is not None:
            return self.call.recorded_quantum
        words = self.call.settings_words()
        if self.call.action != "run" or any(it.startswith("--schedule") for it in words):
            return 0
        return setting_value(words, "quantum")

    def declaration(self, obj: DataObject) -> Declared | None:
        """The file and line where an object is declared or made, or none."""
        program = self.naming.program
        if isinstance(obj.example, Symbol) and program:
            from view.names.fields import value_or_default

            variable = program.variable(obj.example.addr)
            return (
                value_or_default(functools.partial(program.declaration, variable), None)
                if variable
                else None
            )
        if isinstance(obj.example, Block) and obj.example.sites and self.naming.sources:
            place = self.naming.own_place(self.naming.own_sites(obj.example.sites)[0].addr)
            return (place.file, place.line) if place else None
        return None
