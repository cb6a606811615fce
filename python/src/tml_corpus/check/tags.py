"""The names of tags in a corpus, and which of them `tml` knows, so that a corpus is brought in with one look."""

from __future__ import annotations

import re
from dataclasses import dataclass, field

from tml.explaining.faults import BAD_MARKUP, UNKNOWN_TAG, read_fault
from tml.places import Place, Places
from tml.statuses import DOCUMENT_LIMIT
from tml.tags.source import cut as shortened
from tml.tags.units import read_units

from ..asking.program import FAULT, Program, Reply
from ..asking.room import document_of
from ..files.finding import Found, shown

MOST_BLANKS = 100
MOST_BYTES = 8 * DOCUMENT_LIMIT
"""So much is asked about one document at most: about the longest ones eight times."""

MOST_NAMES = 2000
"""How many names are asked about, the frequent ones first; a corpus has some dozens."""


@dataclass
class Names:
    """The tags of one file: of each name, which is cut where it is long, how often it stands there and where first."""

    path: str
    counts: dict[str, int] = field(default_factory=dict)
    firsts: dict[str, Place] = field(default_factory=dict)
    problem: str | None = None
    remark: str | None = None

    def add(self, name: str, count: int, first: Place) -> None:
        """Adds tags of a name, perhaps to those of a longer one that was cut to the same."""
        self.counts[name] = self.counts.get(name, 0) + count
        self.firsts.setdefault(name, first)


def names_in(program: Program, found: Found) -> Names:
    """The names of the start and empty tags of a file, also where it has faults."""
    with document_of(found) as document:
        reply, remark = cut(program, document)
        if reply.status != 0:
            return Names(found.path, problem=reply.problem())
        names, places = Names(found.path, remark=remark), Places(document)
        for name, (count, first) in read_units(reply).counts().items():
            names.add(shortened(name), count, places.place(first))
    return names


def skipped(found: Found, problem: str) -> Names:
    """What there is of a file with which something went wrong."""
    return Names(found.path, problem=problem)


def cut(program: Program, document: bytes) -> tuple[Reply, str | None]:
    """The units of a document, and a remark where it had to be changed for that.

    Bytes that are not UTF-8 and every `&` stand in no known name, so they give way to other characters; a `<` with which
    no tag begins is blanked out, and where that does not end, the document is looked at up to there.
    """
    reply = program.spans(document)
    first = read_fault(reply.text) if reply.status == FAULT else None
    if first is None:
        return reply, None
    remark = f"has fault {first.title()}; its tags are counted all the same"
    changed = re.sub("[\udc80-\udcff]", "?", document.decode("utf-8", "surrogateescape"))
    document = changed.encode("utf-8").replace(b"&", b" ")
    for _ in range(min(MOST_BLANKS, MOST_BYTES // max(len(document), 1))):
        reply = program.spans(document)
        fault = read_fault(reply.text) if reply.status == FAULT else None
        if fault is None or fault.number != BAD_MARKUP:
            return reply, remark
        at = fault.offset
        document = document[:at] + b" " + document[at + 1 :]
    return program.spans(document[:at]), f"has fault {first.title()}; its tags are counted up to byte {at}"


def is_known(program: Program, name: str) -> bool:
    """Whether `tml` knows a tag: asked by a document of that one tag."""
    fault = read_fault(program.check(b"<%s/>" % name.encode("utf-8", "surrogateescape")).text)
    return fault is None or fault.number != UNKNOWN_TAG


@dataclass
class Table:
    """The names of all files."""

    counts: dict[str, int] = field(default_factory=dict)
    files: dict[str, int] = field(default_factory=dict)
    firsts: dict[str, str] = field(default_factory=dict)

    def add(self, names: Names) -> None:
        """Adds the names of one file."""
        for name, count in names.counts.items():
            place = names.firsts[name]
            self.counts[name] = self.counts.get(name, 0) + count
            self.files[name] = self.files.get(name, 0) + 1
            self.firsts.setdefault(name, f"{shown(names.path)}:{place.line}:{place.column}")

    def names(self) -> list[str]:
        """The names, the frequent ones first."""
        return sorted(self.counts, key=lambda name: (-self.counts[name], name))

    def text(self, known: dict[str, bool | str]) -> str:
        """A line for each name: those that `tml` does not know first, with their first place."""
        lines = [f"{'count':>9} {'files':>7}  tag"]
        for name in sorted(self.names(), key=lambda name: known.get(name, False) is True):
            said = known.get(name, "not asked")
            words = said if isinstance(said, str) else "" if said else f"unknown, first at {self.firsts[name]}"
            lines.append(f"{self.counts[name]:9} {self.files[name]:7}  {shown(name)}{words and '  ' + words}")
        return "".join(line + "\n" for line in lines)
