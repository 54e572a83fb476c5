"""Tries the repairs of an object on the trace: its words are moved by `move`, and the misses counted anew."""

import concurrent.futures
import contextlib
import functools
import itertools
import os
import tempfile
import threading
from bisect import bisect_left
from typing import Iterator, NamedTuple, Sequence, cast

from view.repairs import advice
from view.model.trace_uses import (
    UsesFuture,
    can_move,
    has_wide_atomics,
    read_uses,
    read_uses_once,
)
from view.model.byte_sharing import SharingMisses, convert_to_version_1, count_by_bytes
from view.reading.byte_traces import MAX_ACCESSES, Occupied, write_moved_bytes
from view.reading.filtered_traces import MOVED_NEAR
from view.reading.trace_prefix import write_prefix
from view.names.fields import value_or_default
from view.repairs.far_parts import FAR_LAYOUTS, keep_far_apart
from view.repairs.layouts import ADDRESS_END, MovedRange, round_up
from view.model.view import View
from view.model.objects import DataObject
from view.reading.passes import is_brief
from view.reading.engine import PassResult
from view.reading.engine import Predator, TraceReader, Refused, every_line_reader, misses_reader
from view.repairs.candidates import bytewise_fix
from view.repairs.reassignment import uses_neighbours, write_reassigned
from view.repairs.repair import Repair, join_repairs
from view.repairs.search import Counting, Search
from view.reading.reports import Misses, Report
from view.reading.trace_files import ACCESS, NarrowedWords, WordUses
from view.repairs.subjects import Subject, subject_of
from view.repairs.trial_results import TrialCount, Trial

# So many objects are tried, of long traces fewer: about so many accesses are counted anew in all.
MAX_TRIED_OBJECTS, ACCESS_BUDGET = 5, 40_000_000
# How many accesses of a long trace are counted, from where its first objects are contended; fewer choose a repair.
PART_ACCESSES, FRONT_ACCESSES = 1 << 20, 1 << 16
PAGE_BYTES = 4096
HIGH_ADDRESSES = (0xC000_0000, 0x8000_0000, 0x4000_0000)
# So many places are tried for what is moved.
MAX_PLACES = 3
# Why a layout was left out.
OTHER_ORDERS = "elements for other threads (--whole counts them)"
# So many accesses are moved byte by byte for one screen.
MAX_BYTE_ACCESSES = 8_000_000


def free_places(words: Sequence[int], room: int) -> Iterator[int]:
    """Where so many bytes may lie that no access uses, the likeliest first; `words` are those that are known to be used, in order. (Guests
    and recorders give memory from below, so that high places are free.)"""
    above = round_up(words[-1] + 4 if words else 0, PAGE_BYTES)
    for at in (*HIGH_ADDRESSES, above):
        if at + room <= ADDRESS_END and bisect_left(words, at) == bisect_left(words, at + room):
            yield at
    below = 0
    for word in words:
        at = round_up(below, PAGE_BYTES)
        if at + room <= word:
            yield at
            return
        below = word + 4


def move_table(parts: Sequence[MovedRange], base: int) -> str:
    return "".join(f"{it.begin:#x} {it.size} {base + it.to:#x}\n" for it in sorted(parts))


class TrialRunner:
    """What repairs are tried with. Of a long trace the first part of what threads do says which repair is the best, and the whole what that
    comes to."""

    def __init__(self, view: View, predator: Predator, trace: str, folder: str) -> None:
        self.view, self.predator, self.trace, self.folder = view, predator, trace, folder
        self.layout = view.report.size, view.report.offset
        self.moves = itertools.count()
        self.words = sorted(view.word_misses.lines) if view.word_misses else []
        self.front, self.before, self.cold = trace, 0, 0
        self.lock, self.plain_traces, self.byte_accesses = threading.Lock(), dict[str, str](), 0
        # (traces whose threads use other elements, whether they use those beside their own, and whether such layouts were left out)
        self.reassigned = dict[tuple[object, ...], str]()
        self.near_uses, self.lacks_orders = dict[tuple[int, ...], bool](), False
        # (whether layouts by bytes were left out)
        self.is_full = False
        # Of a filtered trace what it says of itself, and how many layouts brought data together that were far from each other.
        self.filtered, self.far_layouts = view.filtered, 0
        # (what atomic instructions for whole words are taken to be for)
        self.narrowed: NarrowedWords = {}
        # (whether the trace is the one whose misses the view shows)
        self.is_whole = trace == view.call.trace_file()
        if view.misses is not None:
            self.note_front(view.misses)

    def set_front(self, front: str) -> None:
        """Names the first part of a long trace."""
        self.front = front
        self.note_front(self.misses_of(self.front))

    def write_front(self, uses: WordUses) -> None:
        """Writes the first part of a long trace, in the version of that."""
        front = os.path.join(self.folder, "front")
        if self.filtered is not None:
            write_prefix(self.trace, uses.front_accesses, front)
        else:
            with open(front, "wb") as part:
                part.write(uses.front)
        self.set_front(front)

    def can_count(self, size: int) -> bool:
        """Whether lines of a size can be counted once words have moved."""
        return self.filtered is None or size <= min(self.filtered.near, MOVED_NEAR)

    def note_front(self, misses: Misses) -> None:
        self.cold = misses.total["cold"]
        self.before = cost_of(misses, self.cold)

    def misses_of(self, trace: str) -> Misses:
        return cast(Misses, self.predator.read_trace(trace, misses_reader(self.layout)))

    def read_moved(
        self, trace: str, repair: Repair, readers: Sequence[TraceReader]
    ) -> list[PassResult] | None:
        """The counts of a trace whose words lie where a repair would put them; none if there is no room, or a filtered trace can't say."""
        trace = self.source(trace, repair)
        if not repair.parts:
            return self.predator.read_trace_by_all(trace, readers)
        of_table = os.path.join(self.folder, f"table-{next(self.moves)}")
        parts, room = repair.parts, repair.room
        if self.filtered is not None and not repair.is_in_place:
            parts, room = keep_far_apart(parts, room, self.layout[0])
        is_far = False
        for base in (
            [0]
            if repair.is_in_place
            else itertools.islice(free_places(self.words, room), MAX_PLACES)
        ):
            with open(of_table, "w", encoding="ascii") as file:
                file.write(move_table(parts, base))
            # (where an access uses what isn't known to be used, another place is tried)
            try:
                return self.predator.read_moved_trace(trace, of_table, readers)
            except Refused as refused:
                is_far = is_far or " table Far " in str(refused)
        with self.lock:
            self.far_layouts += is_far
        return None

    def plain(self, trace: str) -> str:
        """A trace in version 1."""
        with self.lock:
            if trace not in self.plain_traces:
                folder = tempfile.mkdtemp(dir=self.folder)
                self.plain_traces[trace] = convert_to_version_1(self.predator, trace, folder)
            return self.plain_traces[trace]

    def source(self, trace: str, repair: Repair) -> str:
        """The trace whose words a repair moves: the same, or one whose threads use other elements."""
        if not repair.reassignments:
            return trace
        key, plain = (trace, *(it.key() for it in repair.reassignments)), self.plain(trace)
        with self.lock:
            if key not in self.reassigned:
                self.reassigned[key] = os.path.join(self.folder, f"assigned-{next(self.moves)}")
                write_reassigned(plain, self.reassigned[key], repair.reassignments)
            return self.reassigned[key]

    def resolve(self, repair: Repair) -> Repair | None:
        """A repair that gives elements to other threads, as these use the elements: with those beside them, or all. None where the trace
        doesn't say."""
        if not repair.reassignments:
            return repair
        if self.filtered is not None or not self.has_time():
            self.lacks_orders = True
            return None
        of = repair.reassignments[0]
        if of.key() not in self.near_uses:
            self.near_uses[of.key()] = uses_neighbours(self.plain(self.front), of)
        is_near = self.near_uses[of.key()]
        return repair._replace(parts=[]) if is_near else repair._replace(reassignments=())

    def write_moved(self, trace: str, repair: Repair) -> str | None:
        """A trace with the bytes of a repair where they would lie, or none where there is no room."""
        trace = self.source(trace, repair)
        out = os.path.join(self.folder, f"moved-{next(self.moves)}")
        for base in (
            [0]
            if repair.is_in_place
            else itertools.islice(free_places(self.words, repair.room), MAX_PLACES)
        ):
            places = {
                part.begin + at: base + part.to + at
                for part in repair.parts
                for at in range(part.size)
            }
            with contextlib.suppress(Occupied):
                write_moved_bytes(self.plain(trace), out, places, self.narrowed)
                return out
        return None

    def read_moved_bytes(
        self, trace: str, repair: Repair, readers: Sequence[TraceReader]
    ) -> list[PassResult] | None:
        """The counts of a trace whose bytes lie where a repair would put them; none if there is no room."""
        moved = self.write_moved(trace, repair)
        if moved is None:
            return None
        found = self.predator.read_trace_by_all(moved, readers)
        os.unlink(moved)
        return found

    def accesses(self, trace: str) -> int:
        return os.path.getsize(self.plain(trace)) // ACCESS

    def count_front(self, repair: Repair) -> int | None:
        """The misses of a repair, as far as it is looked for the best one, or none."""
        read = self.read_moved_bytes if repair.is_bytewise else self.read_moved
        found = read(self.front, repair, [misses_reader(self.layout)])
        return cost_of(cast(Misses, found[0]), self.cold) if found else None

    def count_fronts(self, repairs: Sequence[Repair]) -> list[int | None]:
        """The same of several, side by side."""
        chosen = [it if self.has_room(it) else None for it in repairs]
        with concurrent.futures.ThreadPoolExecutor(max_workers=min(4, os.cpu_count() or 1)) as pool:
            return list(pool.map(lambda it: self.count_front(it) if it else None, chosen))

    def has_room(self, repair: Repair) -> bool:
        """Whether a repair may be counted: few are by bytes in a long trace."""
        if not repair.is_bytewise:
            return True
        if self.filtered is not None:
            # (it has each word of a thread, but not each byte)
            self.is_full = True
            return False
        self.is_full = not self.has_time() or self.is_full
        return not self.is_full

    def has_time(self) -> bool:
        """Whether another layout may be counted access by access."""
        self.byte_accesses += self.accesses(self.front)
        return self.byte_accesses <= MAX_BYTE_ACCESSES

    def count_whole(self, repair: Repair) -> TrialCount | None:
        """What a repair comes to in the whole trace, or none. Lines whose misses are counted by bytes are so again."""
        size, shift = self.layout
        readers = [misses_reader(self.layout)]
        if self.can_count(2 * size):
            readers += [every_line_reader(self.layout), misses_reader((2 * size, shift))]
        if repair.is_bytewise and self.filtered is not None:
            return None
        left = [it for it in self.view.byte_changes if is_moved(repair, it, self.layout[0])]
        if (repair.is_bytewise or repair.reassignments or left) and self.is_long():
            return None
        if not repair.is_bytewise and not left:
            found = self.read_moved(self.trace, repair, readers)
            by_bytes = dict[int, SharingMisses]()
        else:
            moved = self.write_moved(self.trace, repair)
            found = self.predator.read_trace_by_all(moved, readers) if moved else None
            by_bytes = (
                count_by_bytes(self.predator, moved, left, size, self.new_folder(), self.narrowed)
                if moved
                else {}
            )
        if found is None:
            return None
        misses = cast(Misses, found[0])
        total = dict(misses.total)
        changes = [own for it, own in self.view.byte_changes.items() if it not in left]
        changes += [
            own.useless - misses.lines[base].useless
            for base, own in by_bytes.items()
            if base in misses.lines
        ]
        if self.is_whole:
            total["useless"] += sum(changes)
            total["useful"] -= sum(changes)
        if len(found) == 1:
            return TrialCount(total, None)
        return TrialCount(
            total,
            total_invalidations(cast(Report, found[1])),
            cast(Misses, found[2]).total["useless"],
        )

    def is_long(self) -> bool:
        return self.accesses(self.trace) > MAX_ACCESSES

    def new_folder(self) -> str:
        return tempfile.mkdtemp(dir=self.folder)


def is_moved(repair: Repair, base: int, size: int) -> bool:
    """Whether a repair moves a part of a line."""
    elements = (it.extent() for it in repair.reassignments)
    ranges = [*((it.begin, it.begin + it.size) for it in repair.parts), *elements]
    return any(begin < base + size and base < end for begin, end in ranges)


def cost_of(misses: Misses, cold: int) -> int:
    """All misses, of the cold ones at least so many: a repair is for what threads share, and may not cost cold ones."""
    total = misses.total
    return total["useless"] + total["useful"] + max(total["cold"], cold)


class TrialGround(NamedTuple):
    """What repairs are tried on: a trace or its first part, who uses its words, its misses, how many accesses the program made meanwhile
    and how many of them it has; `in_part` are the misses of the part, and none where it is the whole.
    """

    trial: TrialRunner
    uses: WordUses
    before: TrialCount
    accesses: int
    recorded: int
    in_part: Misses | None = None

    def trial_of(self, obj: DataObject, subject: Subject) -> Trial:
        own = None
        if self.in_part is not None:
            there = [
                self.in_part.lines[spot.base]
                for spot in obj.lines
                if spot.base in self.in_part.lines
            ]
            own = sum(it.useless + it.useful for it in there)
        return Trial(obj, self.before, self.accesses, subject, self.uses, own, self.recorded)


def whole_ground(
    view: View, predator: Predator, reading: UsesFuture, folder: str
) -> TrialGround | None:
    trace, uses = view.call.trace_file(), read_uses_once(view, predator, reading)
    if trace is None or uses is None:
        return None
    trial = TrialRunner(view, predator, trace, folder)
    trial.narrowed = uses.narrowed
    if uses.front:
        trial.write_front(uses)
    return TrialGround(trial, uses, count_before(view), view.accesses, view.report.accesses)


def part_ground(
    view: View, predator: Predator, objects: Sequence[DataObject], folder: str
) -> TrialGround | None:
    """The first part of a long trace in which the objects are contended."""
    trace = view.call.trace_file()
    if trace is None or not can_move(view, predator):
        return None
    worst = (it.worst_line().line_with_words() for it in objects)
    start = max((line.start for line in worst if line), default=0)
    part, front = (os.path.join(folder, it) for it in ("part", "first"))
    accesses = write_prefix(trace, start + PART_ACCESSES, part)
    write_prefix(part, start + FRONT_ACCESSES, front)
    uses, trial = read_uses(predator, part, has_wide_atomics(view)), TrialRunner(
        view, predator, part, folder
    )
    if uses is None:
        return None
    trial.narrowed = uses.narrowed
    trial.set_front(front)
    misses, each = predator.read_trace_by_all(
        part, [misses_reader(trial.layout), every_line_reader(trial.layout)]
    )
    found = cast(Misses, misses)
    return TrialGround(
        trial,
        uses,
        TrialCount(found.total, total_invalidations(cast(Report, each))),
        # (of a filtered trace as many were left out of this part as elsewhere)
        accesses * view.accesses // max(view.report.accesses, 1),
        accesses,
        found,
    )


def total_invalidations(each: Report | None) -> int | None:
    return sum(it.count for it in each.observed()) if each else None


def count_before(view: View) -> TrialCount:
    return TrialCount(
        view.misses.total if view.misses else {}, total_invalidations(view.every_line)
    )


def try_objects(
    view: View, predator: Predator | None, objects: Sequence[DataObject], reading: UsesFuture
) -> None:
    """Tries the repairs of the first objects, where the program can move words and the trace can be read again."""
    if predator is None or view.misses is None:
        return
    before = count_before(view)
    tried = {it.key: Trial(it, before, view.accesses) for it in objects}
    worth = [it for it in objects if not tried[it.key].is_rare() and is_worth_trying(it, before)][
        :MAX_TRIED_OBJECTS
    ]
    with tempfile.TemporaryDirectory(prefix="predator-view-") as folder, contextlib.suppress(
        Refused
    ):
        ground = (
            part_ground(view, predator, worth, folder)
            if is_brief(view.call)
            else whole_ground(view, predator, reading, folder)
        )
        if ground is None:
            return
        view.trials = tried
        found, wrappers = [], dict[str, tuple[object, ...]]()
        if not ground.trial.can_count(view.report.size):
            view.notes.append(
                f"no fixes were tried: on a filtered trace they need lines of at most {MOVED_NEAR} bytes;"
                " --whole records all accesses"
            )
            return
        for obj in worth[: max(ACCESS_BUDGET // max(ground.recorded, 1), 1)]:
            subject = value_or_default(
                functools.partial(subject_of, view, obj, ground.uses, wrappers), None
            )
            own = ground.trial_of(obj, subject) if subject is not None else None
            if subject is not None and own is not None and own.own_misses():
                found.append(
                    choose_repair(ground.trial, own, subject, ground.uses, view.report.size)
                )
        counted = count_repairs(ground.trial, found)
        note_same_repairs(found)
        note_joint_result(view, found, counted)
        view.trials.update((it.obj.key, it) for it in found)


def is_worth_trying(obj: DataObject, before: TrialCount) -> bool:
    """Whether an object has a part of the misses that is worth a look."""
    return (obj.useless + obj.useful) * advice.LITTLE >= before.sharing_misses() > 0


def choose_repair(
    trial: TrialRunner, found: Trial, subject: Subject, uses: WordUses, line: int
) -> Trial:
    """The best of the repairs of an object, yet to be counted."""
    if found.mixed_words():
        found.instead = value_or_default(
            functools.partial(bytewise_fix, subject, uses, line), "give each its own line"
        )
    subjects = [subject, *subject.neighbours]
    trial.far_layouts, trial.lacks_orders = 0, False
    result = Search(
        *(subjects, uses, line, trial.before), Counting(trial.count_fronts, trial.resolve)
    ).run()
    found.repair, found.other_repair, found.bound_repair = result.best, result.other, result.bound
    found.tried_repairs, found.left_out = result.layouts, [*subject.left_out, *result.left_out]
    if trial.is_full:
        found.left_out.append("layouts by bytes")
    if trial.far_layouts:
        found.left_out.append(FAR_LAYOUTS)
    if trial.lacks_orders:
        found.left_out.append(OTHER_ORDERS)
    found.expected_savings = (
        (trial.before - result.misses) * found.before.all_misses() // max(trial.before, 1)
        if result.best
        else 0
    )
    return found


def count_repairs(trial: TrialRunner, found: Sequence[Trial]) -> TrialCount | None:
    """Counts all repairs in the whole trace, some side by side, and what those come to together that are named, or none where they are
    less than two."""
    likely = [it for it in found if it.repair and it.is_much(it.expected_savings)]
    both = (
        join_repairs([it.repair for it in likely if it.repair], trial.layout[0])
        if len(likely) > 1
        else None
    )
    jobs = [
        *(job for it in found for job in (it.repair, it.other_repair, it.bound_repair)),
        both,
    ]
    with concurrent.futures.ThreadPoolExecutor(max_workers=min(4, os.cpu_count() or 1)) as pool:
        counts = list(pool.map(lambda job: trial.count_whole(job) if job else None, jobs))
    for at, result in enumerate(found):
        result.after, result.other, result.bound = counts[3 * at : 3 * at + 3]
        is_far = trial.filtered and (result.repair and not result.after or not result.bound)
        if is_far and FAR_LAYOUTS not in result.left_out:
            result.left_out.append(FAR_LAYOUTS)
    saving = [it for it in found if it.is_named()]
    if len(saving) < 2 or saving == likely:
        return counts[-1] if len(saving) > 1 else None
    return trial.count_whole(
        join_repairs([it.repair for it in saving if it.repair], trial.layout[0])
    )


def note_same_repairs(found: Sequence[Trial]) -> None:
    """Names a repair once: of several that move the same data for the object whose repair saves most, with the fewest changes."""
    named = [it for it in found if it.is_named() and it.repair]
    order = {id(it): (len(it.repair.hows) if it.repair else 0, at) for at, it in enumerate(named)}
    instead: dict[int, Trial] = {}
    for own in named:
        better = [
            trial
            for trial in named
            if trial.covers(own) and (not own.covers(trial) or order[id(trial)] < order[id(own)])
        ]
        if better:
            instead[id(own)] = min(better, key=lambda it: (it.all_misses_left(), order[id(it)]))
    for own in named:
        last, seen = own, {id(own)}
        while (other := instead.get(id(last))) is not None and id(other) not in seen:
            last = other
            seen.add(id(other))
        if last is not own:
            own.same_as = last.obj
            if own.other_repair and last.repair and {*own.other_repair.hows} <= {*last.repair.hows}:
                own.other_repair = None


def note_joint_result(view: View, found: Sequence[Trial], counted: TrialCount | None) -> None:
    """Notes what all repairs come to that are named, where they are several different ones."""
    if counted is not None and sum(it.same_as is None for it in found if it.is_named()) > 1:
        view.notes.append(
            f"all fixes together{found[0].part_text()}: {found[0].before.beside(counted)}"
        )
