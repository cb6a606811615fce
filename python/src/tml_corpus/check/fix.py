"""What `fix` writes: in a copy, which `tml` has to accept, or to go further in, before it is shown or written."""

from __future__ import annotations

import re
from collections.abc import Callable, Iterable, Iterator
from dataclasses import dataclass, field, replace
from functools import cache, partial
from itertools import chain, islice

from tml.explaining import faults
from tml.explaining.encoding import converted, declared_encoding, decoding, is_undeclared, readings
from tml.explaining.explain import OF_TAGS, explain
from tml.explaining.faults import Fault, read_fault
from tml.explaining.markup import cdata_edits, quote_edits, reference_edits
from tml.explaining.nesting import end_edits, name_edits
from tml.places import Places, characters
from tml.tags.cutting import units_of_whole
from tml.tags.edits import Edit, applied
from tml.tags.similar import plain
from tml.tags.source import Explanation, Source
from tml.tags.units import Unit, Units, unit_at

from ..asking.program import FAULT, CannotRun, Program
from ..asking.room import document_of
from ..files.finding import CannotRead, Found, counted, shown
from ..files.replacing import replace_file
from ..lint.kinds import Lint
from ..lint.warnings import warnings_of
from ..origins.restored import Found as Explained
from ..origins.restored import found_origin, told
from ..origins.search import is_near
from .formats import located
from .judgement import problem_of

ROUNDS = 64
"""How many kinds of slips are fixed in one document at most, one after another."""

MOST_SEARCHED = 6 << 20
"""In how many bytes of a document together, which changes from one slip to the next, a wrong keystroke is searched for."""

MOST_EDITS = 100_000
"""A kind of slip that is there more often is left."""

MOST_CANDIDATES = 9
"""How many candidates are printed for a fault that is left."""

CONTEXT = 3
"""How many lines around a change are shown."""

FOUND_LINK = "is a symbolic link found in a folder: name it to fix what it leads to"


Edits = Callable[[Source, Fault], Iterable[Edit]]
NOTATIONS: dict[int, list[tuple[str, Edits]]] = {
    faults.NOT_UTF8: [
        ("the encoding that the file declares", lambda source, _: converted(source.document, declared_encoding(source.document)))
    ],
    faults.BAD_REFERENCE: [
        ("HTML entities", lambda source, _: (edit for edit in reference_edits(source.document) if is_entity(source.document, edit)))
    ],
    faults.BAD_MARKUP: [
        ("CDATA sections", lambda source, _: cdata_edits(source.document)),
        ("curly quotes", lambda source, _: quote_edits(source.document)),
    ],
    faults.UNKNOWN_TAG: [("tags in other letters", lambda source, _: filter(partial(in_other_letters, source), name_edits(source)))],
    faults.UNBALANCED: [("tags in other letters", lambda source, _: filter(partial(in_other_letters, source), end_edits(source)))],
    faults.BAD_VALUE: [("values in other letters", lambda source, fault: cures_of_tags(source, fault, in_other_letters))],
}
"""Notations that `tml` does not read and that can be read in one way only. No single keystroke makes one of what was right."""

GUESSES: dict[int, list[tuple[str, Edits]]] = {
    faults.BAD_REFERENCE: [("unescaped &", lambda source, _: reference_edits(source.document))],
    faults.UNKNOWN_TAG: [("names of tags", lambda source, _: name_edits(source))],
    faults.UNBALANCED: [("names of tags", lambda source, _: end_edits(source))],
    faults.REPEATED: [("repeated attributes", lambda source, fault: cures_of_tags(source, fault))],
    faults.MISSING: [("names of attributes, and identifiers", lambda source, fault: cures_of_tags(source, fault))],
    faults.BAD_VALUE: [("values", lambda source, fault: cures_of_tags(source, fault))],
    faults.CONFLICT: [("ends of links", lambda source, fault: cures_of_tags(source, fault))],
    faults.BAD_DATE: [("dates", lambda source, fault: cures_of_tags(source, fault))],
    faults.DUPLICATE: [("identifiers", lambda source, fault: cures_of_tags(source, fault))],
    faults.UNKNOWN_REFERENCE: [("references", lambda source, fault: cures_of_tags(source, fault))],
}
"""What probably helps against a fault in all of a document, each with the words for it: made only with `--unsafe`."""

OF_ONE_TAG = frozenset({faults.REPEATED, faults.MISSING, faults.BAD_VALUE, faults.CONFLICT, faults.BAD_DATE})
"""The faults that only a change of their own tag cures."""

ONE_KEYSTROKE = "one keystroke"
"""The words for a keystroke that explains a fault alone."""

ONE_CURE = "what is at fault"
"""The words for the cure of one fault, if it is none of those."""

CURED_WARNINGS = {"tag-as-text": "tags without their <", "misspelled-attribute": "names of attributes", "value-form": "values of times"}
"""The kinds of warnings of which some have one cure only, each with the words for it."""

OTHER_DATE = re.compile(rb"\d{4}([/.]?)\d\d\1\d\d")
"""A date in another notation: with other signs between its parts, or none."""


@dataclass(frozen=True)
class Step:
    """A kind of slip that was fixed: the words for it, its edits, the document after them, and the fault that is first then."""

    words: str
    edits: list[Edit]
    after: bytes
    following: Fault | None
    is_sure: bool = False
    """Whether it may be made without `--unsafe`."""


@dataclass
class Fixed:
    """A document that was fixed as far as there is one cure only, what was changed, and the fault that remains."""

    before: bytes
    after: bytes
    changes: list[str] = field(default_factory=list)
    left: Fault | None = None
    candidates: tuple[Edit, ...] = ()
    """What may have been meant if a fault is left, each an edit of the document after the changes."""

    def perhaps(self) -> Iterator[str]:
        """What may help against the fault that is left, in words."""
        if self.left is not None and self.left.number == faults.NOT_UTF8:
            yield from (f"--from {name}: {shown(line)}" for name, line in readings(self.after, self.left.offset))
        places = Places(self.after)
        yield from (f"perhaps {told(self.after, edit, places)}" for edit in self.candidates)


@dataclass(frozen=True)
class FixReport:
    """What became of one file: what is printed of it, whether it can be or was fixed, whether a fault is left, and whether it is known
    what may have been meant."""

    text: str
    changed: bool = False
    left: bool = False
    question: bool = False
    problem: bool = False


def fix(program: Program, found: Found, writes: bool, unsafe: bool = False, encoding: str | None = None) -> FixReport:
    """Fixes one file, in memory or, if `writes`, in its place; with `unsafe` by guesses too, and from an `encoding` if it declares none."""
    if found.is_found_link():
        raise CannotRead(FOUND_LINK)
    with document_of(found) as document:
        fixed = mended(program, document, unsafe, encoding)
    if writes and fixed.changes:
        write(fixed, found)
    perhaps = list(islice(fixed.perhaps(), MOST_CANDIDATES + 1))
    if encoding is not None and fixed.left is not None and fixed.left.number == faults.NOT_UTF8:
        perhaps.insert(0, f"its bytes are not of the encoding {encoding}, or it declares another one")
    return FixReport(report(found.path, fixed, writes, perhaps), bool(fixed.changes), fixed.left is not None, bool(perhaps))


def not_fixed(found: Found, problem: str) -> FixReport:
    """The report of a file that could not be looked at or written."""
    return FixReport(f"{shown(found.path)}: not fixed: {shown(problem)}\n", problem=True)


def mended(program: Program, document: bytes, unsafe: bool = False, encoding: str | None = None) -> Fixed:
    """Fixes a document, one fault after another, as long as `tml` goes further each time, and then what it accepts as it is."""
    fixed = Fixed(document, document)
    fault, room = first_fault(program, document), MOST_SEARCHED
    for _ in range(ROUNDS):
        found = steps_of_warnings(program, fixed.after, unsafe)
        room -= len(fixed.after)
        if fault is not None:
            origin = cache(partial(found_origin, program, fixed.after, fault) if room > 0 else partial(Explained))
            found = chain(step_from(program, fixed.after, fault, encoding), steps(program, fixed.after, fault, origin, unsafe))
        step = next(found, None)
        if step is None:
            fixed.candidates = origin().candidates if fault is not None else ()
            break
        fixed.after, fault = step.after, step.following
        fixed.changes.append(step.words)
    fixed.left = fault
    return fixed


def step_from(program: Program, document: bytes, fault: Fault, encoding: str | None) -> Iterator[Step]:
    """The change out of an encoding of a document that is not UTF-8 and declares no encoding that it can be of."""
    if encoding is not None and fault.number == faults.NOT_UTF8 and is_undeclared(document):
        step = helping(program, document, fault, f"the encoding {encoding}", list(converted(document, decoding(document, encoding))))
        yield from [] if step is None else [step]


def steps(program: Program, document: bytes, fault: Fault, origin: Callable[[], Explained], unsafe: bool) -> Iterator[Step]:
    """The changes that help against a fault: after each the document is accepted, or its first fault comes later.

    Another notation comes first, then a keystroke that explains the fault alone. What is only probable needs `unsafe`, and is nothing
    that a keystroke explains too.
    """
    units = units_of_whole(program, document) if fault.number > faults.BAD_MARKUP else None
    for step in steps_by(program, document, fault, units, NOTATIONS):
        yield replace(step, is_sure=True)
    restored = origin().restored
    explained = helping(program, document, fault, ONE_KEYSTROKE, [restored]) if restored is not None else None
    if explained is not None:
        yield replace(explained, is_sure=True)
    if not unsafe:
        return
    # Of a kind that is there too often no slip is fixed alone either, or a document of them would be looked at again for each.
    guesses = list(steps_by(program, document, fault, units, GUESSES))
    yield from guesses
    cure = None if guesses else helping(program, document, fault, ONE_CURE, explain(program, document, fault).edits)
    if cure is not None:
        yield cure


def steps_by(
    program: Program, document: bytes, fault: Fault, units: Units | None, table: dict[int, list[tuple[str, Edits]]]
) -> Iterator[Step]:
    """The changes by the rows of a table for a fault that help against it. What is there too often is left."""
    for words, edits_of in table.get(fault.number, []):
        edits = list(islice(edits_of(Source(document, units), fault), MOST_EDITS + 1))
        step = helping(program, document, fault, words, edits) if len(edits) <= MOST_EDITS else None
        if step is not None:
            yield step


def is_entity(document: bytes, edit: Edit) -> bool:
    """Whether an edit writes the character of an HTML entity, whose name is not one keystroke away from that of a reference of XML."""
    name = document[edit.start + 1 : edit.end - 1].decode()
    return name != "" and not any(is_near(name, one) for one in ("lt", "gt", "amp", "quot", "apos"))


def in_other_letters(source: Source, edit: Edit) -> bool:
    """Whether an edit changes the case of more than one letter, the sign between words, or what nobody sees, and nothing else."""
    old, new = (text.decode("utf-8", "surrogateescape") for text in (source.document[edit.start : edit.end], edit.text))
    differing = sum(one != other for one, other in zip(old, new, strict=False)) + abs(len(old) - len(new))
    return (differing > 1 or not old.isascii()) and plain(old) == plain(new)


def steps_of_warnings(program: Program, document: bytes, unsafe: bool) -> Iterator[Step]:
    """The changes of what is suspect in an accepted document and has one cure only: after each it is accepted still."""
    source = Source(document, units_of_whole(program, document))
    for name, words in CURED_WARNINGS.items():
        edits = [edit for warning in warnings_of(program, source, Lint(frozenset({name}))) for edit in warning.edits]
        if not unsafe:
            edits = [edit for edit in edits if is_sure(document, name, edit)]
        changed = applied(document, edits)
        if changed != document and first_fault(program, changed) is None:
            yield Step(f"{words} ({counted(len(edits), 'change')})", edits, changed, None)


def is_sure(document: bytes, warning: str, edit: Edit) -> bool:
    """Whether the cure of a warning reads another notation. What is accepted and only suspect may be meant."""
    return warning == "value-form" and OTHER_DATE.fullmatch(document, edit.start, edit.end) is not None


def helping(program: Program, document: bytes, fault: Fault, words: str, edits: list[Edit]) -> Step | None:
    """Some edits as a step, if they help against a fault."""
    changed = applied(document, edits)
    if changed == document:
        return None
    following = first_fault(program, changed)
    if following is not None and following.order() <= moved(fault, edits).order():
        return None
    return Step(f"{words} ({counted(len(edits), 'change')})", edits, changed, following)


def moved(fault: Fault, edits: Iterable[Edit]) -> Fault:
    """A fault at the place where it is after some edits before it."""
    shift = sum(len(edit.text) - (edit.end - edit.start) for edit in edits if edit.end <= fault.offset)
    return Fault(fault.number, fault.name, fault.offset + shift)


def cures_of_tags(source: Source, fault: Fault, fits: Callable[[Source, Edit], bool] = lambda *_: True) -> Iterator[Edit]:
    """The edits of a kind for a fault of all tags, of each where there is one cure only; none if nothing else can cure the one at fault."""
    own = unit_at(source.units, fault.offset) if fault.number in OF_ONE_TAG else None
    if own is None or any(fits(source, edit) for edit in cures_of(source, fault, own)):
        for tag in chain(*source.by_kind.values()):
            yield from (edit for edit in cures_of(source, fault, tag) if fits(source, edit))


def cures_of(source: Source, fault: Fault, tag: Unit) -> list[Edit]:
    """The edits for such a fault of one tag."""
    found = Explanation()
    OF_TAGS[fault.number](source, tag, found)
    return found.edits


def first_fault(program: Program, document: bytes) -> Fault | None:
    """The first fault of a document, or None where it is accepted."""
    reply = program.check(document)
    fault = read_fault(reply.text) if reply.status == FAULT else None
    problem = problem_of(reply) if fault is None else None
    if problem is not None:
        raise CannotRun(problem)
    return fault


def difference(path: str, fixed: Fixed, how: str = "fixed") -> str:
    """The changes line by line."""
    old, new = lines_of(fixed.before), lines_of(fixed.after)
    if len(old) != len(new):
        return difference_of_lines(path, old, new, how)
    changed = [number for number, (one, other) in enumerate(zip(old, new, strict=True)) if one != other]
    lines = [f"--- {shown(path)}", f"+++ {shown(path)} ({how})"]
    for first, last in hunks(changed, len(old)):
        lines.append(f"@@ -{first + 1},{last - first} +{first + 1},{last - first} @@")
        for number in range(first, last):
            if old[number] == new[number]:
                lines.append(" " + printed(old[number]))
            else:
                lines += ["-" + printed(old[number]), "+" + printed(new[number])]
    return "".join(line + "\n" for line in lines)


def difference_of_lines(path: str, old: list[bytes], new: list[bytes], how: str) -> str:
    """The same where lines were put in or taken out."""
    import difflib

    before, after = ([printed(line) for line in lines] for lines in (old, new))
    found = difflib.unified_diff(before, after, shown(path), f"{shown(path)} ({how})", n=CONTEXT, lineterm="")
    return "".join(line + "\n" for line in found)


def lines_of(document: bytes) -> list[bytes]:
    """The lines of a document without their line feeds."""
    lines = document.split(b"\n")
    return lines if lines[-1] else lines[:-1]


def hunks(changed: list[int], count: int) -> Iterator[tuple[int, int]]:
    """The stretches of lines around changes."""
    first = last = -1
    for number in changed:
        if first >= 0 and number - CONTEXT <= last:
            last = min(number + CONTEXT + 1, count)
            continue
        if first >= 0:
            yield first, last
        first, last = max(number - CONTEXT, 0), min(number + CONTEXT + 1, count)
    if first >= 0:
        yield first, last


def printed(line: bytes) -> str:
    """A line as it may be printed: what is not printable is escaped, but for tabs."""
    return "\t".join(shown(part) for part in characters(line.rstrip(b"\r")).split("\t"))


def report(path: str, fixed: Fixed, writes: bool, perhaps: list[str]) -> str:
    """What is printed of one file: the changes, unless they are written, what is left to fix, and what may have been meant."""
    lines, changed = [], bool(fixed.changes)
    if changed:
        lines.append(f"{shown(path)}: {'fixed' if writes else 'can be fixed'}: {', '.join(fixed.changes)}")
    if fixed.left is not None:
        then = "then left" if changed and not writes else "left"
        place = Places(fixed.after).place(fixed.left.offset)
        lines.append(f"{located(path, place)}: {then} to fix: {fixed.left.title()} at byte {fixed.left.offset}; see `tml-corpus check`")
        lines += [*(f"  {one}" for one in perhaps[:MOST_CANDIDATES]), *["  or others"] * (len(perhaps) > MOST_CANDIDATES)]
    changes = difference(path, fixed) if changed and not writes else ""
    return changes + "".join(line + "\n" for line in lines)


def write(fixed: Fixed, found: Found) -> None:
    """Writes a fixed document, if the file is still what was fixed."""
    replace_file(found.place(), fixed.after, fixed.before, found.top)
