"""From the texts that are answered to the classes of results. The texts are those that docs/COMMANDS.md describes."""

from __future__ import annotations

import re
from collections.abc import Iterator, Sequence
from itertools import islice
from typing import TYPE_CHECKING, Any

from .lines import Evidence, lines_of, step_of
from .misuse import ByName
from .places import Places
from .results import (
    Accepted,
    Attribute,
    Claim,
    Clash,
    Counterexample,
    Cycle,
    Date,
    Drill,
    Fault,
    Link,
    Malformed,
    Placing,
    Possible,
    Proof,
    Reduced,
    Refused,
    Relation,
    Score,
    Seconds,
    Timeline,
    Unit,
)

if TYPE_CHECKING:
    from .asking import Answerer

TOO_LONG = {"DOC": "document", "KEY": "key", "EVIDENCE": "evidence", "SECOND": "second", "SECONDS": "seconds"}
"""The files as the text names them that says which one is too long."""


TAGS = re.compile(
    rb"<!--(?s:.*?)-->|<\?(?s:.*?)\?>|<(TLINK|MAKEINSTANCE|TIMEX3)(?=[ \t\r\n/>])([^<>\"']*+(?:(?:\"[^\"]*+\"|'[^']*+')[^<>\"']*+)*+)>"
)
"""The links, instances and times of an accepted document, and what may hold something like them."""

ATTRIBUTES = re.compile(rb"([^ \t\r\n=<>/]++)[ \t\r\n]*+=[ \t\r\n]*+(?:\"([^\"]*+)\"|'([^']*+)')")


def read_fault(text: bytes, document: bytes, file: Any) -> Fault:
    """The fault of a document, by the line that names it."""
    _, number, name, offset = text.decode("ascii").split()
    place = Places(document).place(int(offset))
    return Fault(int(number), name, place.offset, place.line, place.column, file, document)


def tags_of(document: bytes, name: bytes) -> Iterator[dict[bytes, str]]:
    """The attributes of the tags of a name in an accepted document, as they are written."""
    for found in TAGS.finditer(document):
        if found[1] == name:
            yield {key: (first or second).decode("utf-8", "replace") for key, first, second in ATTRIBUTES.findall(found[2])}


def lids_of(document: bytes) -> list[str | None]:
    """The lid of each TLINK of an accepted document, in their order; None where it has none."""
    return [values.get(b"lid") or None for values in tags_of(document, b"TLINK")]


def times_of(document: bytes) -> set[str]:
    """The names of the times of an accepted document."""
    return {values.get(b"tid", "") for values in tags_of(document, b"TIMEX3")}


def events_of(document: bytes) -> dict[str, list[str]]:
    """The instances of each event of an accepted document that has one."""
    found: dict[str, list[str]] = {}
    for values in tags_of(document, b"MAKEINSTANCE"):
        found.setdefault(values.get(b"eventID", ""), []).append(values.get(b"eiid", ""))
    return found


def read_accepted(text: bytes, document: bytes) -> Accepted:
    """An accepted document, by what `check` says of it."""
    _, *lines = lines_of(text)
    counts = [int(count) for _, count in lines[:7]]
    intervals = tuple(words[2] for words in lines[7:] if words[0] == "interval")
    return Accepted(*counts, intervals, links_of(lines[7 + len(intervals) :], document))  # type: ignore[call-arg,arg-type]


def links_of(lines: Sequence[Sequence[str]], document: bytes) -> tuple[Link, ...]:
    """Links, by the lines of `check` and `reduce`, with what the document has for their lids."""
    lids = dict(enumerate(lids_of(document))) if lines and b"lid" in document else {}
    return tuple(Link(int(number), first, relation, second, lids.get(int(number))) for _, number, first, relation, second in lines)


def read_dates(text: bytes) -> dict[str, Date]:
    """What the calendar says of each time, by its name."""
    return {name: date_of(words) for name, *words in lines_of(text)}


def date_of(words: Sequence[str]) -> Date:
    """What the calendar says of one time, by the words after its name."""
    if words[0] == "free":
        return Date("free")
    kind: Any = words[0]
    return Date(kind, int(words[1]), int(words[2]), words[3], words[4])


def read_units(text: bytes) -> list[Unit]:
    """The units of a document, which may be very many. A name may have any letters."""
    units: list[Unit] = []
    attributes: list[Attribute] = []
    for start, end, kind, *name in lines_of(text):
        if kind == "attribute":
            attributes.append(Attribute(int(start), int(end), name[0]))
            continue
        if attributes:
            units[-1] = with_attributes(units[-1], attributes)
            attributes = []
        units.append(unit_of(int(start), int(end), kind, name))
    if attributes:
        units[-1] = with_attributes(units[-1], attributes)
    return units


def unit_of(start: int, end: int, kind: Any, name: Sequence[str]) -> Unit:
    """A unit without attributes."""
    return Unit(start, end, kind, name[0] if name else None)


def with_attributes(unit: Unit, attributes: Sequence[Attribute]) -> Unit:
    """The same tag with its attributes."""
    return Unit(unit.start, unit.end, unit.kind, unit.name, tuple(attributes))


def read_relations(text: bytes) -> list[Relation]:
    """The relations that follow, each as a triple of names."""
    return [Relation(first, relation, second) for first, relation, second in lines_of(text)]


def read_timeline(text: bytes, names: Sequence[str], document: bytes, by: Answerer | None) -> Timeline:
    """A timeline of intervals with these names, as it was printed as evidence for who was asked."""
    return Timeline(Evidence(text).ranks(names), text, content=document, by=by)


def cited(text: bytes) -> list[int]:
    """The numbers of the links of a clash that was printed as evidence."""
    return [int(number) for _, number in Evidence(text).counted()]


def read_clash(text: bytes, of: Accepted, document: bytes) -> Clash:
    """A clash that was printed as evidence."""
    lines = Evidence(text)
    links = tuple(of.links[int(number)] for _, number in lines.counted())
    return Clash(links, lines.walk(), of.intervals, text, document)


def read_proof(text: bytes, relation: Relation, of: Accepted, document: bytes) -> Proof | Counterexample:
    """What was printed as evidence on a relation."""
    lines = Evidence(text)
    if next(lines.rest)[0] == "counter":
        return Counterexample(relation, lines.ranks(of.intervals), text, document)
    walks = []
    while lines.peek() != ["end"]:
        walks.append(lines.walk())
    return Proof(relation, tuple(walks), text, document)


def read_possible(text: bytes, names: Sequence[str]) -> Possible:
    """The possible relations between two intervals, with their timelines."""
    lines = Evidence(text, 0)
    count = int(next(lines.rest)[1])
    return Possible({next(lines.rest)[1]: lines.ranks(names) for _ in range(count)})


def read_reduced(text: bytes, document: bytes) -> Reduced:
    """The links that stay."""
    (_, _, _, total), *lines = lines_of(text)
    return Reduced(links_of(lines, document), int(total))


def read_score(text: bytes) -> Score:
    """Precision and recall as counts."""
    (_, matched, _, links), (_, found, _, key_links) = lines_of(text)
    return Score(int(matched), int(links), int(found), int(key_links))


def read_seconds(text: bytes, names: Sequence[str], document: bytes) -> Placing | Cycle:
    """A placing by the names of the intervals, or a cycle."""
    _, (kind, _), *lines, _ = lines_of(text)
    if kind == "cycle":
        return Cycle(tuple(map(step_of, lines)), text, document)
    return Placing(ByName((name, Seconds(int(start), int(end))) for name, (_, start, end) in zip(names, lines, strict=True)), text)


def read_claims(text: bytes) -> tuple[Claim, ...]:
    """What the claims of evidence show."""
    return tuple(claim_of(*words[1:]) for words in lines_of(text))


def claim_of(kind: Any, *words: str) -> Claim:
    """What one claim shows."""
    if kind == "clash":
        return Claim(kind, links=tuple(map(int, words)))
    return Claim(kind, Relation(*words) if words else None)


def read_malformed(text: bytes, file: Any) -> Malformed | None:
    """The bad line that a text names: of a second file, or else of this one. None where it is right in its form."""
    found = re.fullmatch(rb"(evidence|second) line (\d+)\n", text)
    return Malformed("second" if found[1] == b"second" else file, int(found[2])) if found else None


def read_refused(text: bytes) -> Refused:
    """Why evidence, a placing or a cycle is refused."""
    line = text.decode("ascii").removesuffix("\n")
    found = re.fullmatch(r"evidence claim (\d+) part (\d+) (.+)", line)
    return Refused(found[3], int(found[1]), int(found[2])) if found else Refused(line.removeprefix("seconds "))


def read_drill(text: bytes) -> Drill:
    """The summary of a drill."""
    return Drill(*(int(words[1]) for words in islice(lines_of(text), 5)))
