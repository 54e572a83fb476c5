"""The repairs that were tried of an object, what each came to on the trace, and the fix as a sentence."""

import re
from typing import NamedTuple

from view.repairs.advice import patterns
from view.model.objects import DataObject
from view.repairs.repair import Repair
from view.reading.trace_files import WordUses
from view.repairs.subjects import Subject

# A repair that saves fewer than one in so many of the object's misses, or of the accesses, isn't worth it.
MIN_OWN_SHARE_DIVISOR, MIN_ACCESS_SHARE_DIVISOR = 10, 1000
# Two repairs of the same data are about as good whose savings differ by less than one in so many.
ALIKE_DIVISOR = 50
ALIGNMENT = re.compile(r"align(?:ed|as)?\((\d+)\)")
# Where words in which threads use different bytes have one in so many of the accesses to what threads share, words can't decide.
MIXED_SHARE_DIVISOR = 4


class TrialCount(NamedTuple):
    """What is counted of a trace: its misses, what the report's rule counts, and the false-sharing misses with lines twice as long, or
    none."""

    total: dict[str, int]
    invalidations: int | None
    useless_in_pairs: int | None = None

    def sharing_misses(self) -> int:
        return self.total["useless"] + self.total["useful"]

    def all_misses(self) -> int:
        return sum(self.total.values())

    def beside(self, after: "TrialCount") -> str:
        """The numbers before and after a repair."""
        text = ", ".join(
            f"{column} {self.total[name]:,} → {after.total[name]:,}"
            for name, column in (("useless", "false"), ("useful", "true"), ("cold", "cold"))
        )
        return f"misses {self.all_misses():,} → {after.all_misses():,} ({text})"


class Trial:
    """The best of the repairs of an object and what it came to, each none where none could be tried; `instead` is the fix for words in
    which threads use different bytes. Of a long trace only its first accesses are counted: `own_misses_in_part` are the object's misses
    there, and none where the whole is counted."""

    def __init__(
        self,
        obj: DataObject,
        before: TrialCount,
        accesses: int,
        subject: Subject | None = None,
        uses: WordUses | None = None,
        own_misses_in_part: int | None = None,
        recorded: int | None = None,
    ) -> None:
        self.obj, self.before, self.accesses, self.subject, self.uses = (
            obj,
            before,
            accesses,
            subject,
            uses,
        )
        self.own_misses_in_part = own_misses_in_part
        # (how many of the accesses the trace has: all, unless it is filtered)
        self.recorded = accesses if recorded is None else recorded
        self.cached_mixed_words: list[int] | None = None
        # The best repair, the best one of another kind, all words apart by their threads, and what each of them comes to.
        self.repair: Repair | None = None
        self.other_repair: Repair | None = None
        self.bound_repair: Repair | None = None
        self.after: TrialCount | None = None
        self.other: TrialCount | None = None
        self.bound: TrialCount | None = None
        # (what the search had no room for)
        self.left_out: list[str] = []
        # (the object for which the same repair is named already, or none)
        self.same_as: DataObject | None = None
        # (how many misses it saves, by the part of the trace by which it was chosen)
        self.tried_repairs, self.expected_savings, self.instead = 0, 0, ""

    def own_misses(self) -> int:
        return (
            self.obj.useless + self.obj.useful
            if self.own_misses_in_part is None
            else self.own_misses_in_part
        )

    def part_text(self) -> str:
        """The part of the trace that was counted, where it isn't the whole."""
        if self.own_misses_in_part is None:
            return ""
        which = "recorded " if self.recorded != self.accesses else ""
        return f" (first {self.recorded:,} {which}accesses)"

    def is_rare(self) -> bool:
        """Whether the object is missed so seldom that no repair is worth anything."""
        return (
            self.own_misses_in_part is None
            and self.own_misses() * MIN_ACCESS_SHARE_DIVISOR < self.accesses
        )

    def saved_by(self, after: TrialCount | None) -> int:
        """How many misses are saved of what threads share, without the cold ones that come instead."""
        if after is None:
            return 0
        more = max(after.total.get("cold", 0) - self.before.total.get("cold", 0), 0)
        return self.before.sharing_misses() - after.sharing_misses() - more

    def saved_misses(self) -> int:
        return self.saved_by(self.after)

    def is_saving(self) -> bool:
        """Whether the best repair saves enough to be named."""
        return self.is_much(self.saved_misses())

    def is_named(self) -> bool:
        """Whether the best repair is this object's fix: it saves enough, and the object isn't one that threads share alone."""
        is_own = self.obj.useless > 0 or self.is_rare() or bool(self.mixed_words())
        return self.is_saving() and is_own

    def all_misses_left(self) -> int:
        """All misses of the trace with the best repair."""
        return self.after.all_misses() if self.after else self.before.all_misses()

    def covers(self, other: "Trial") -> bool:
        """Whether another object's best repair is a part of this one, or moves the same data and saves no more."""
        if other is self or self.repair is None or other.repair is None:
            return False
        if set(other.repair.hows) < set(self.repair.hows):
            return True
        own, its = (one.repair.moved() for one in (self, other) if one.repair)
        saved = other.before.all_misses() - other.all_misses_left()
        lost = self.all_misses_left() - other.all_misses_left()
        return 2 * len(own & its) >= len(its) and lost * ALIKE_DIVISOR <= saved

    def is_much(self, saved: int) -> bool:
        return (
            saved > 0
            and saved * MIN_OWN_SHARE_DIVISOR >= self.own_misses()
            and saved * MIN_ACCESS_SHARE_DIVISOR >= self.accesses
        )

    def bound_text(self) -> str:
        """What all words apart by their threads would leave of the object's misses."""
        own = self.own_misses()
        left = max(own - max(self.saved_by(self.bound), 0), 0)
        return f"separating all words by thread would leave {f'all {own:,}' if left == own else f'{left:,} of {own:,}'} misses"

    def otherwise(self) -> str:
        """The repair of another kind, where that saves enough too, and what it came to; or nothing."""
        if self.other_repair is None or self.other is None:
            return ""
        if not self.is_much(self.saved_by(self.other)):
            return ""
        return f"; or {self.other_repair.sentence()}: {self.numbers(self.other, self.other_repair)}"

    def numbers(self, after: TrialCount, repair: Repair) -> str:
        """The misses and the memory before and after a repair."""
        return self.before.beside(after) + repair.sizes_text()

    def mixed_words(self) -> list[int]:
        """The words of the object in which threads use different bytes, where these have a large part of the accesses to shared words."""
        if self.cached_mixed_words is None:
            self.cached_mixed_words = self.find_mixed_words()
        return self.cached_mixed_words

    def find_mixed_words(self) -> list[int]:
        if self.subject is None or self.uses is None:
            return []
        shared = [it for it in self.subject.words() if len(self.uses.users_of(it)) > 1]
        found = [it for it in shared if self.uses.is_mixed(it)]
        return (
            found
            if self.accesses_to(found) * MIXED_SHARE_DIVISOR >= self.accesses_to(shared)
            else []
        )

    def accesses_to(self, words: list[int]) -> int:
        """How many accesses some words have while threads run."""
        return (
            sum(use.accesses() for it in words for use in self.uses.users_of(it).values())
            if self.uses
            else 0
        )

    def has_other_reason(self) -> bool:
        """Whether an object without false-sharing misses may be repaired: with another, by its bytes, or for it is missed seldom."""
        return self.same_as is not None or self.is_rare() or bool(self.mixed_words())

    def is_decisive(self) -> bool:
        """Whether the trial decides the fix."""
        return (
            self.after is not None
            or self.bound is not None
            or self.is_rare()
            or bool(self.mixed_words())
        )

    def fix(self, names: list[str], quantum: int = 0) -> str:
        """The fix of the object; `names` are the words in which threads use different bytes, and `quantum` is 0 where it isn't known."""
        if self.is_rare():
            return f"none needed: {self.own_misses():,} of {self.accesses:,} accesses miss"
        mixed = f"because threads use different bytes of {', '.join(patterns(names))} and misses are counted per 4-byte word"
        if self.same_as is not None:
            return f"see {self.same_as.name}: its fix covers this too{self.otherwise()}"
        if self.is_saving() and self.repair:
            rest = (
                f"; for the rest {self.instead}, then run again, {mixed}"
                if names and not self.repair.is_bytewise
                else ""
            )
            return self.repair.sentence() + self.pairs_text() + rest
        if names:
            return f"{self.instead}, then run again, {mixed}"
        where = f" at this interleaving (quantum {quantum:,})" if quantum else " on this trace"
        less = "; write shared data less often" if self.obj.useful >= self.obj.useless else ""
        if self.bound is None:
            return f"unknown: no layout that was tried helps{where}, and not all words could be separated"
        if self.saved_misses() * MIN_OWN_SHARE_DIVISOR >= self.own_misses() > 0:
            best = f"the best layout saves {self.saved_misses():,} misses"
            return f"none: {best}, fewer than one in {MIN_ACCESS_SHARE_DIVISOR:,} accesses{where}{less}"
        if self.is_much(self.saved_by(self.bound)):
            return f"no repair that predator can write removes them; {self.bound_text()}{less}"
        return f"none: no layout change helps{where}{less}"

    def pairs_text(self) -> str:
        """That lines which come in pairs want twice the alignment, where false sharing would come back there; or nothing."""
        again = self.after.useless_in_pairs if self.after else None
        if not again or again * MIN_OWN_SHARE_DIVISOR < self.before.total["useless"]:
            return ""
        found = ALIGNMENT.search(self.repair.sentence() if self.repair else "")
        return (
            f"; {2 * int(found[1])} instead of {found[1]} if lines come in pairs" if found else ""
        )

    def outcome(self, is_mixed: bool) -> str:
        """What trying the repairs came to: the numbers before and after the one that is named, or how little the best one saves; or
        nothing. `is_mixed` says whether threads use different bytes of words, so that the numbers don't judge the fix.
        """
        if self.is_rare() or self.after is None and self.bound is None:
            return ""
        if self.same_as is not None:
            return ""
        rest = f"; left out: {', '.join(self.left_out)}" if self.left_out else ""
        if self.after is not None and self.repair is not None and self.is_saving():
            more = ""
            least = self.saved_by(self.bound) - self.saved_misses()
            if self.bound is not None and self.is_much(least):
                most = f"{self.bound.all_misses():,} of {self.before.all_misses():,}"
                more = f"; separating all words by thread would leave {most} misses"
            text = self.numbers(self.after, self.repair) + self.part_text()
            return text + self.otherwise() + more + rest
        if is_mixed:
            return ""
        many = f"{self.tried_repairs:,} layout{'' if self.tried_repairs == 1 else 's'}"
        which = "the best of which" if self.tried_repairs > 1 else "which"
        saved = max(self.saved_misses(), 0)
        best = f", {which} saves {saved:,} of {self.own_misses():,} misses"
        text = many + (best if self.tried_repairs else "")
        if self.bound is not None and not self.is_much(self.saved_by(self.bound)):
            text += f"; {self.bound_text()}"
        return text + self.part_text() + rest
