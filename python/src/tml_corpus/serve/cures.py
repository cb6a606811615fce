"""What mends what is said of a document: for each fault and each warning the edits that its sentence names.

`tml` checks the document with each of them: what is preferred lets it come further, and what a person has to choose lets it come as far
at least. Preferred is only what `fix` writes without `--unsafe`. What may be only a consequence of another fault is offered as that.
"""

from __future__ import annotations

from collections.abc import Iterator
from itertools import chain, islice
from operator import itemgetter

from tml.explaining.faults import BAD_MARKUP, Fault
from tml.statuses import DOCUMENT_LIMIT, RELATIONS
from tml.tags.edits import Edit
from tml.tags.profile import LEFT, RIGHT
from tml.tags.source import Explanation, Source
from tml.tags.units import unit_at

from ..check.fix import ONE_CURE, ONE_KEYSTROKE, is_sure
from .document import OpenDocument
from .edits import BEYOND, action, how_far, titled
from .possible import blanked, possible
from .wire import Json

QUICK_FIX = "quickfix"
MOST_EDITS = 1000
"""How many edits go one by one; of more one edit is made."""

MOST_OFFERED, LEAST_OFFERED = 64, 4
MOST_BYTES = 16 * DOCUMENT_LIMIT
"""How many edits are offered for the lines that are asked for; of a long document fewer, since `tml` is asked about each."""


def cures(document: OpenDocument, lines: tuple[int, int]) -> Iterator[Json]:
    """What mends the faults and the warnings in some lines. Of the same slip in one line the first one is mended first."""
    seen: set[tuple[Edit, ...]] = set()
    titles: set[str] = set()
    found = chain(of_first_fault(document, lines, seen), of_faults(document, lines, seen), of_warnings(document, lines, seen))
    for one in islice(found, most_for(document)):
        if one["title"] in titles and not one["isPreferred"]:
            start = one["edit"]["changes"][document.uri][0]["range"]["start"]
            one["title"] += f", at {start['line'] + 1}:{start['character'] + 1}"
        if one["title"] not in titles:
            titles.add(one["title"])
            yield one


def most_for(document: OpenDocument) -> int:
    """How many edits of a document `tml` is asked about."""
    return max(min(MOST_OFFERED, MOST_BYTES // max(len(document.text), 1)), LEAST_OFFERED)


def of_first_fault(document: OpenDocument, lines: tuple[int, int], seen: set[tuple[Edit, ...]]) -> Iterator[Json]:
    """One keystroke that explains the first fault, or all slips of its kind at once. Only what is sure is preferred, as with `fix`."""
    fault = document.fault
    for step in document.steps:
        if tuple(step.edits) not in seen and fault is not None and is_near(lines, fault.offset, *(edit.start for edit in step.edits)):
            is_first = not seen
            seen.add(tuple(step.edits))
            edits = step.edits if len(step.edits) <= MOST_EDITS else [difference(document.text, step.after)]
            is_single = step.words.startswith((ONE_CURE, ONE_KEYSTROKE))
            title = titled(document, document.text, edits, lines) if is_single else f"Fix {step.words}"
            yield action(document, title, QUICK_FIX, edits, preferred=step.is_sure and is_first)


def of_faults(document: OpenDocument, lines: tuple[int, int], seen: set[tuple[Edit, ...]]) -> Iterator[Json]:
    """What the sentences on the faults name, what may be a consequence last. Each sign of a mark of version control is a fault, of which
    only the first is told."""
    marked = 0
    for fault, found, perhaps in sorted(document.explained + document.further, key=itemgetter(2)):
        is_part = fault.number == BAD_MARKUP and fault.offset < marked
        if not is_part and is_near(lines, fault.offset, found.start, *(edit.start for edit in found.edits)):
            made = of_fault(document, fault, found, lines, seen)
            yield from map(as_perhaps, made) if perhaps else made
        if fault.number == BAD_MARKUP:
            marked = max(marked, found.end)


def as_perhaps(made: Json) -> Json:
    """What mends a fault that may be only a consequence of those before it."""
    return made | {"title": f"{made['title']}, if no fault before is the cause"}


def is_near(lines: tuple[int, int], *places: int) -> bool:
    """Whether one of some places is in some lines."""
    return any(lines[0] <= place <= lines[1] for place in places)


def of_fault(
    document: OpenDocument, fault: Fault, found: Explanation, lines: tuple[int, int], seen: set[tuple[Edit, ...]]
) -> Iterator[Json]:
    """What the sentence on a fault names: its one cure, or what a person has to choose, in the order in which it is likely to help."""
    sure = tuple(found.edits)
    ways = [way for way in dict.fromkeys([sure, *found.choices()]) if way and way not in seen][: most_for(document)]
    seen.update(ways)
    reached = {way: how_far(document.program, found.document, fault, way) for way in ways}
    helping = [way for way in ways if reached[way] is not None and (way != sure or reached[way] == BEYOND)]
    left = left_by_others(document, fault, found) if any(relation_in(way) for way in helping) else None
    for way in sorted(helping, key=lambda way: (reached[way], left is not None and relation_in(way) not in left)):
        clashes = left is not None and relation_in(way) not in ("", *left)
        title = titled(document, found.document, way, lines) + (", which clashes with the other links" if clashes else "")
        yield action(document, title, QUICK_FIX, way)


def relation_in(way: tuple[Edit, ...]) -> str:
    """The relation that some edits write; nothing where they write none."""
    words = [edit.text.decode("utf-8", "replace").strip().removeprefix("relType=").strip('"') for edit in way]
    return next((word for word in words if word in RELATIONS), "")


def left_by_others(document: OpenDocument, fault: Fault, found: Explanation) -> list[str] | None:
    """The relations that the rest of the document leaves for the link at fault; None where that is not known, or it is no TLINK."""
    tag = unit_at(found.units, fault.offset) if found.units is not None else None
    if tag is None or tag.name != "TLINK":
        return None
    source = Source(found.document, found.units)
    left, right = (next(filter(None, (source.value(tag, name) for name in pair)), "") for pair in (LEFT, RIGHT))
    end = source.end_of(tag) or tag
    return possible(document.program, blanked(found.document, (tag.start, end.end)), left, right)


def of_warnings(document: OpenDocument, lines: tuple[int, int], seen: set[tuple[Edit, ...]]) -> Iterator[Json]:
    """What the sentences of warnings name; after it the document is accepted still."""
    for warning in document.suspects:
        ways = [warning.edits, *warning.choices()] if warning.start < lines[1] and lines[0] <= warning.end else []
        for way in filter(None, ways):
            if way not in seen and how_far(document.program, document.text, None, way) == BEYOND:
                seen.add(way)
                preferred = way == warning.edits and all(is_sure(document.text, warning.name, edit) for edit in way)
                yield action(document, titled(document, document.text, way, lines), QUICK_FIX, way, preferred=preferred)


def difference(before: bytes, after: bytes) -> Edit:
    """The stretch in which two texts differ. It begins and ends with whole lines, so that no character is cut."""
    old, new = before.splitlines(keepends=True), after.splitlines(keepends=True)
    first = next((number for number, (one, other) in enumerate(zip(old, new, strict=False)) if one != other), min(len(old), len(new)))
    rest = zip(reversed(old[first:]), reversed(new[first:]), strict=False)
    same = next((number for number, (one, other) in enumerate(rest) if one != other), min(len(old), len(new)) - first)
    last, new_last = len(old) - same, len(new) - same
    start = sum(map(len, old[:first]))
    return Edit(start, start + sum(map(len, old[first:last])), b"".join(new[first:new_last]))
