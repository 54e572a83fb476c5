"""The HTML page: one file that needs no network and no script. Its template, page.html, escapes every name."""

import os
import re
from typing import Iterator, NamedTuple, Sequence

from view.reading.calls import TOP
from view.output.drawings import Given, templates
from view.model.fine_grain import fine_notes
from view.model.foreign_objects import row_of
from view.model.view import ObjectDetails, View
from view.names.naming import address_text
from view.model.objects import ObjectLine, DataObject, WordUse, word_uses
from view.model.word_owners import join_names
from view.model.worst_line import wholes
from view.model.predicted_lines import PredictedLine
from view.reading.reports import LineInvalidations
from view.output.screen import (
    counted,
    details,
    minors,
    next_step,
    numbers_of,
    numbers_together,
    outcome_of,
    same_words,
    summary,
    totals,
    type_and_place,
)

# Colours that the colour blind can distinguish (Okabe and Ito); each hart has a letter too.
COLOURS = ("#e69f00", "#56b4e9", "#009e73", "#f0e442", "#8fb8ff", "#ff9f6b", "#e6a9c9", "#bdbdbd")
MANY = "background:repeating-linear-gradient(45deg,#fff 0 6px,#c9c9c9 6px 9px)"
# So many lines of an object, pairs of instructions, words in a row, lines of a source, predicted lines and readers of a word are drawn.
LINES, PAIRS, ROW, AROUND, STRIPS, READERS = 24, 3, 16, 2, 24, 6
HEADS = ("false", "true", "inval", "lines")
PLACE = re.compile(r"^0x[0-9a-f]+, (?=.)")
# A line that has less than one part in so many of the object's worst line isn't drawn; nor, behind the first ones of an object, is one with
# less than one part in so many of all.
FEW, FIRST, LITTLE = 50, 4, 100


def letter(hart: int) -> str:
    return ("" if hart < 26 else letter(hart // 26 - 1)) + chr(65 + hart % 26)


def colour(hart: int) -> str:
    return COLOURS[hart % len(COLOURS)]


class Users(NamedTuple):
    """The thread that alone writes or uses a word, or none where several do; and the other threads that use it."""

    owner: int | None
    others: tuple[int, ...]


def users_of(view: View, obj: DataObject, word: WordUse) -> Users:
    """The threads of a word: while threads run where the trace was read, and else in the whole run."""
    tried = (view.trials or {}).get(obj.key)
    found = tried.uses.users_of(word.addr) if tried and tried.uses and word.key == obj.key else {}
    if not found:
        return Users(None if word.hart == "many" else int(word.hart), ())
    writers = sorted(hart for hart, use in found.items() if use.writes)
    if len(writers) == 1 or not writers and len(found) == 1:
        owner = writers[0] if writers else next(iter(found))
        return Users(owner, tuple(it for it in sorted(found) if it != owner))
    return Users(None, tuple(sorted(found)))


def title_of(view: View, word: WordUse, users: Users) -> str:
    """What a cell says of its word where a pointer rests on it."""
    owner = view.naming.memory.owner
    who = "several threads" if users.owner is None else owner(users.owner)
    if users.others:
        names = join_names([owner(it) for it in users.others])
        who = f"{who}: {names}" if users.owner is None else f"written by {who}, read by {names}"
    numbers = f"{counted(word.reads, 'read')}, {counted(word.writes, 'write')}"
    return f"{address_text(word.addr)} {word.name}: {numbers}, {who}"


class Cells(NamedTuple):
    """What the cells of an object's words have in common: the object, its name, which its cells leave out, and the greatest number."""

    view: View
    obj: DataObject | None
    name: str
    most: int
    is_alone: bool

    def cell(self, word: WordUse, is_wide: bool = False) -> Given:
        """The cell of a word, or of a number of two, in the colour of the thread that writes it, with the letters of those that read it."""
        own = self.obj is not None and word.key == self.obj.key
        users = (
            users_of(self.view, self.obj, word)
            if self.obj is not None
            else Users(None if word.hart == "many" else int(word.hart), ())
        )
        # (a place on a stack without its address, which the title has)
        field = PLACE.sub("", word.name.removeprefix(self.name)) or (
            word.name if self.is_alone else "+0"
        )
        return {
            "span": "grid-column:span 2" if is_wide else "",
            "title": title_of(self.view, word, users),
            "letter": "✱" if users.owner is None else letter(users.owner),
            "others": "".join(letter(it) for it in users.others[:READERS])
            + ("…" if len(users.others) > READERS else ""),
            "style": MANY if users.owner is None else f"background:{colour(users.owner)}",
            "read_height": round(100 * word.reads / self.most),
            "write_height": round(100 * word.writes / self.most),
            "reads": word.reads,
            "writes": word.writes,
            "field": field if own else PLACE.sub("", word.name),
        }


def cells(
    view: View, base: int, size: int, words: Sequence[WordUse], obj: DataObject | None, name: str
) -> list[Given | None]:
    """The cells of a range, in order; none where a word wasn't accessed."""
    most = max([it.reads for it in words] + [it.writes for it in words] + [1])
    own = sum(obj is not None and it.key == obj.key for it in words)
    made = Cells(view, obj, name, most, own < 2)
    at: dict[int, WordUse] = {}
    for word in wholes(sorted(words, key=lambda it: it.addr)):
        at[word.addr] = word
    halves = {it.addr for it in words} - {*at}
    # (the second half of a number has no cell of its own)
    return [
        made.cell(at[addr], addr + 4 in halves) if addr in at else {} if addr in halves else None
        for addr in range(base, base + size, 4)
    ]


def row(view: View, spot: ObjectLine, seen: ObjectDetails, size: int) -> Given:
    """A line, in rows of words."""
    words = [it for it in seen.words if spot.base <= it.addr < spot.base + size]
    own = (
        cells(view, spot.base, size, words, seen.obj, seen.obj.name)
        if spot.line_with_words()
        else []
    )
    numbers = []
    if spot.missed:
        numbers.append(counted(spot.missed.useless, "false-sharing miss"))
        numbers.append(f"{spot.missed.useful:,} true-sharing")
    invalidations = view.invalidations_of(spot)
    if invalidations is not None:
        numbers.append(counted(invalidations, "invalidation"))
    return {
        "base": address_text(spot.base),
        "numbers": ", ".join(numbers),
        "parts": [own[it : it + ROW] for it in range(0, len(own), ROW)],
    }


def matrix(explained: LineInvalidations) -> Given:
    """How often each thread invalidates the line in each other thread's cache."""
    harts = sorted({it for pair in explained.harts for it in pair})
    most = max(explained.harts.values(), default=1)

    def one(victim: int, taker: int) -> Given:
        taken = explained.harts.get((victim, taker), 0)
        return {
            "text": f"{taken:,}" if taken else "",
            "style": f"background:rgba(213,94,0,{0.75 * taken / most:.2f})" if taken else "",
        }

    return {
        "harts": [letter(it) for it in harts],
        "rows": [{"hart": letter(it), "cells": [one(it, to) for to in harts]} for it in harts],
    }


def side(view: View, addr: int, role: str) -> Given:
    """One instruction's place, with the lines of its source around it."""
    sources = view.naming.sources
    place = (sources.place(addr) or sources.near(addr)) if sources else None
    lines: list[Given] = []
    if sources and place:
        text = sources.text(place.file)
        for number in range(max(1, place.line - AROUND), min(len(text), place.line + AROUND) + 1):
            lines.append({"number": number, "text": text[number - 1], "hit": number == place.line})
    lacks = (
        f"{place.file} isn't here: name its folder with --sources"
        if place
        else "no source line is known"
    )
    at = f", {address_text(addr)}" if place else ""
    return {
        "role": role,
        "place": view.naming.names.shorten(view.naming.instruction_name(addr)) + at,
        "lines": lines,
        "lacks": lacks,
    }


def pairs(view: View, seen: ObjectDetails) -> Iterator[Given]:
    for conflicting in seen.conflicts()[:PAIRS]:
        sides = [
            side(view, conflicting.invalidator, "invalidates"),
            side(view, conflicting.victim, "loses the line"),
        ]
        yield {
            "text": f"{counted(conflicting.times, 'invalidation')}{same_words(view, conflicting)}",
            "sides": sides,
        }


def worth_drawing(view: View, obj: DataObject) -> list[ObjectLine]:
    """The first lines of an object, without those that have few of the misses and invalidations of its worst one, or of all."""

    def much(spot: ObjectLine) -> int:
        return (spot.missed.useless + spot.missed.useful if spot.missed else 0) + (
            spot.line.count if spot.line else 0
        )

    total, worst = sum(one.useless + one.useful + one.count for one in view.objects), much(
        obj.worst_line()
    )
    first = [
        one
        for one in obj.worst_lines()[:LINES]
        if one.line_with_words() and much(one) * FEW >= worst
    ]
    return [one for at, one in enumerate(first) if at < FIRST or much(one) * LITTLE >= total]


def in_code(text: str) -> list[str]:
    """A sentence in pieces, every second one of which stands in backquotes."""
    return text.split("`")


def object_values(view: View, obj: DataObject) -> Given:
    """One object as the template has it."""
    seen, drawn = view.details(obj), sorted(worth_drawing(view, obj), key=lambda one: one.base)
    worst, conflict = seen.worst(), seen.worst_conflict()
    short = view.naming.names.shorten
    return {
        "name": short(view.label(obj) + obj.note),
        "type": short(type_and_place(view, obj, seen)),
        "numbers": [f"{one:,}" for one in numbers_of(view, obj)],
        "beside": [short(view.label(view.objects_by_key[key])) for key in obj.neighbours],
        "worst": short(worst.field_name()) if worst else "",
        "conflict": [
            short(view.naming.instruction_name(at))
            for at in (conflict.invalidator, conflict.victim)
        ]
        if conflict
        else [],
        "details": [(label, in_code(short(text))) for label, text in details(view, obj)],
        "rows": [row(view, one, seen, view.report.size) for one in drawn],
        "more": len(obj.lines) - len(drawn),
        "explained": address_text(seen.explained.base) if seen.explained else "",
        "matrix": matrix(seen.explained) if seen.explained and seen.explained.harts else None,
        "pairs": list(pairs(view, seen)),
    }


def strip(view: View, foretold: PredictedLine, observed: dict[int, ObjectLine]) -> Given:
    """A predicted line as a brace over the words of the lines that it meets."""
    line, size = foretold.line, view.report.size
    first = (line.base - view.report.offset) // size * size + view.report.offset
    bases = list(range(first, line.base + line.size, size))
    own = word_uses(ObjectLine(line.base, line, None), view.naming, view.word_misses)
    beside = [
        word
        for base in bases
        if base in observed
        for word in word_uses(observed[base], view.naming, view.word_misses)
    ]
    words = own + [it for it in beside if not line.base <= it.addr < line.base + line.size]
    name = view.name_of(next(iter(foretold.keys))) if len(foretold.keys) == 1 else ""
    numbers = counted(line.count, "invalidation")
    if foretold.useless is not None:
        numbers = f"{counted(foretold.useless, 'false-sharing miss')} instead of {foretold.observed_useless or 0:,}"
    key = next(iter(foretold.keys), None)
    return {
        "name": ", ".join(view.name_of(key) for key in foretold.keys) or "memory",
        "kind": line.kind,
        "base": address_text(line.base),
        "numbers": numbers,
        "words": cells(
            view,
            first,
            len(bases) * size,
            words,
            view.objects_by_key[key] if key in view.objects_by_key else None,
            name,
        ),
        "first": (line.base - first) // 4 + 1,
        "last": (line.base + line.size - first) // 4 + 1,
    }


def library(view: View) -> str:
    """The row that the objects of the C library share, which aren't drawn, or nothing."""
    if not view.folded_objects():
        return ""
    *misses, invalidations, lines = numbers_together(view, view.folded_objects())
    names = ("false-sharing miss", "true-sharing miss")
    parts = [counted(many, name) for many, name in zip(misses, names)]
    parts += [counted(invalidations, "invalidation"), counted(lines, "line")]
    return f"{row_of(view.folded_objects(), bool(view.runtime_keys))}: {', '.join(parts)}"


def title(view: View, chosen: Sequence[DataObject]) -> str:
    """The worst object in a sentence: `chosen` are the objects that have a row."""
    name = os.path.basename(view.call.named)
    if not chosen:
        return f"{name}: {'only library objects are' if view.folded_objects() else 'no line is'} contended"
    first, useless = chosen[0], view.misses.total["useless"] if view.misses else 0
    if useless:
        how = f"{first.useless:,} of {counted(useless, 'false-sharing miss')}"
    else:
        how = counted(view.invalidations(first), "invalidation")
    return f"{name}: {view.naming.names.shorten(view.label(first))} has {how}"


def page(view: View) -> str:
    """The whole page."""
    top = view.call.number_option("top", TOP)
    chosen = [it for it in view.listed_objects() if not view.is_minor(it)]
    first = chosen[:top]
    is_all = "predicted" in view.call.options
    observed, foretold = {
        spot.base: spot
        for obj in view.objects
        for spot in obj.lines
        if spot.line or view.filtered and spot.each
    }, view.chosen_predictions()
    strips = [
        strip(view, predicted, observed)
        for predicted in [one for one in foretold if one.is_shown or is_all][:STRIPS]
    ]
    harts, has_many = threads_of(view, first, foretold[: len(strips)])
    return (
        templates()
        .get_template("page.html")
        .render(
            title=title(view, chosen),
            ended_well=view.report.ended_well(),
            outcome=outcome_of(view),
            is_filtered=view.filtered is not None,
            summary=summary(view),
            next_step=next_step(view),
            totals=totals(view) if view.misses else "",
            heads=HEADS[0 if view.misses else 2 :],
            notes=[*view.notes, *(it.replace("`", "") for it in fine_notes(view))],
            objects=[object_values(view, it) for it in first],
            more=max(0, len(chosen) - top),
            minors=minors(view, [it for it in view.listed_objects() if view.is_minor(it)]),
            library=library(view),
            harts=harts,
            has_many=has_many,
            many=MANY,
            predicted=strips,
            folded=len(foretold) - len(strips),
        )
    )


def threads_of(
    view: View, objects: Sequence[DataObject], foretold: Sequence[PredictedLine]
) -> tuple[list[Given], bool]:
    """The threads that are drawn, each with its letter and colour, and whether a word of several threads is."""
    used = [users_of(view, it, word) for it in objects for word in view.details(it).words]
    harts = [word.hart for it in foretold for word in it.line.words()]
    found = {it.owner for it in used} | {hart for it in used for hart in it.others}
    found |= {None if it == "many" else int(it) for it in harts}
    found |= {
        hart
        for obj in objects
        if (explained := view.details(obj).explained)
        for pair in explained.harts
        for hart in pair
    }
    owner = view.naming.memory.owner
    return [
        {"name": owner(hart), "letter": letter(hart), "colour": colour(hart)}
        for hart in sorted(it for it in found if it is not None)
    ], None in found
