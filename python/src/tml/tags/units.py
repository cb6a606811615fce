"""The units of a document, as `tml spans` prints them: tags, attributes and texts with their places."""

from __future__ import annotations

from array import array
from bisect import bisect_left
from collections.abc import Iterator, Sequence
from typing import NamedTuple, Protocol, overload

from ..running import CannotRun

CHUNK = 256 * 1024
SHOWN = 80

KINDS = ("start", "empty", "end", "attribute", "text", "comment", "bom", "declaration", "doctype")
START, EMPTY, END, ATTRIBUTE, TEXT = range(5)
CODES = {kind.encode(): code for code, kind in enumerate(KINDS)}
NAMELESS = tuple(b" %s\n" % kind.encode() for kind in KINDS[TEXT:])


class Printed(Protocol):
    """What `tml` answered: its status and its text, and the number of bytes of the document where it is known."""

    @property
    def status(self) -> int:
        """The status."""

    @property
    def text(self) -> bytes:
        """The text."""

    @property
    def size(self) -> int | None:
        """The number of bytes."""


class Cutter(Protocol):
    """Who cuts documents into units."""

    def seen(self, document: bytes) -> bytes:
        """The document as it is asked about; all places are the same in it."""

    def spans(self, document: bytes) -> Printed:
        """What `tml spans` answers."""


class Attribute(NamedTuple):
    """An attribute of a tag: from the first byte of its name to past the closing quote."""

    name: str
    start: int
    end: int

    def value(self, document: bytes) -> bytes:
        """The value between the quotes, as it is written."""
        text = document[self.start : self.end]
        return text[text.index(text[-1:]) + 1 : -1]

    def written(self, document: bytes) -> str:
        """The attribute as it is written, cut where it is long."""
        text = document[self.start : min(self.end, self.start + 4 * SHOWN + 4)].decode("utf-8", "surrogateescape")
        return text if len(text) <= SHOWN else text[: SHOWN - 3] + "..."


class Unit:
    """A stretch of the document: a tag, a text, a comment or another kind; tags have a name, start and empty tags attributes."""

    __slots__ = ("start", "end", "kind", "name", "units", "row")

    def __init__(self, start: int, end: int, kind: str, name: str, units: Units, row: int) -> None:
        self.start, self.end, self.kind, self.name, self.units, self.row = start, end, kind, name, units, row

    def __eq__(self, other: object) -> bool:
        return isinstance(other, Unit) and (self.start, self.end, self.kind, self.name) == (other.start, other.end, other.kind, other.name)

    def __repr__(self) -> str:
        return f"Unit({self.start}, {self.end}, {self.kind!r}, {self.name!r})"

    @property
    def attributes(self) -> Iterator[Attribute]:
        """The attributes one by one: a tag may have hundreds of thousands, of which the first ones are asked for."""
        return self.units.attributes(self.row) if self.opens() else iter(())

    def opens(self) -> bool:
        """Whether it is a start tag or an empty tag."""
        return self.kind in ("start", "empty")

    def value_of(self, name: str, document: bytes) -> str | None:
        """The value of the attribute of this name, or None where there is none."""
        for attribute in self.attributes:
            if attribute.name == name:
                return attribute.value(document).decode("utf-8", "surrogateescape")
        return None


class Numbers(dict[bytes, int]):
    """Numbers for words: from 0 on, in the order in which they are asked for."""

    def __missing__(self, word: bytes) -> int:
        self[word] = number = len(self)
        return number


class Units(Sequence[Unit]):
    """The units of a document in their order, one after another without a gap.

    A document may have two million of them, so they lie in arrays, a row for each unit and for each attribute after its tag,
    and a `Unit` is made where it is looked at.
    """

    def __init__(self) -> None:
        self.starts, self.ends, self.kinds, self.names = array("I"), array("I"), bytearray(), array("I")
        self.rows: Sequence[int] = range(0)
        self.places = self.starts
        self.ids = Numbers()
        self.words: list[str] = []

    def add(self, lines: bytes) -> None:
        """Adds rows, from some lines of the table. So that each line has four words, units without a name get one."""
        for line_end in NAMELESS:
            lines = lines.replace(line_end, line_end[:-1] + b" -\n")
        words = lines.split()
        self.starts.extend(map(int, words[0::4]))
        self.ends.extend(map(int, words[1::4]))
        self.kinds.extend(map(CODES.__getitem__, words[2::4]))
        self.names.extend(map(self.ids.__getitem__, words[3::4]))
        if not len(self.starts) == len(self.ends) == len(self.kinds) == len(self.names):
            raise ValueError

    def finish(self, size: int | None) -> None:
        """Once all rows are there: finds the units among them, and sees that these follow each other over the whole document."""
        self.words = [word.decode("utf-8", "surrogateescape") for word in self.ids]
        self.ids.clear()
        ends = self.ends
        if ATTRIBUTE in self.kinds:
            self.rows = array("I", [row for row, kind in enumerate(self.kinds) if kind != ATTRIBUTE])
            self.places, ends = array("I", map(self.starts.__getitem__, self.rows)), array("I", map(self.ends.__getitem__, self.rows))
        else:
            self.rows = range(len(self.kinds))
        whole = ends[-1] if ends else 0
        if (
            self.places[1:] != ends[:-1]
            or self.places[:1] not in (array("I"), array("I", [0]))
            or whole != (whole if size is None else size)
        ):
            raise ValueError

    def __len__(self) -> int:
        return len(self.rows)

    @overload
    def __getitem__(self, index: int) -> Unit:
        ...

    @overload
    def __getitem__(self, index: slice) -> list[Unit]:
        ...

    def __getitem__(self, index: int | slice) -> Unit | list[Unit]:
        if isinstance(index, slice):
            return [self.unit(row) for row in self.rows[index]]
        return self.unit(self.rows[index])

    def __iter__(self) -> Iterator[Unit]:
        return map(self.unit, self.rows)

    def unit(self, row: int) -> Unit:
        """The unit of a row."""
        kind = self.kinds[row]
        return Unit(self.starts[row], self.ends[row], KINDS[kind], self.words[self.names[row]] if kind <= END else "", self, row)

    def attributes(self, row: int) -> Iterator[Attribute]:
        """The attributes of the tag of a row: those of the rows after it."""
        for one in range(row + 1, len(self.kinds)):
            if self.kinds[one] != ATTRIBUTE:
                break
            yield Attribute(self.words[self.names[one]], self.starts[one], self.ends[one])

    def numbers_of(self, names: frozenset[str]) -> set[int]:
        """The numbers of some names, of which there may be very many."""
        return {number for number, word in enumerate(self.words) if word in names}

    def opening(self, *names: str) -> list[Unit]:
        """The start and empty tags of these names."""
        wanted = self.numbers_of(frozenset(names))
        starts, ends, kinds, words = self.starts, self.ends, self.kinds, self.words
        return [
            Unit(starts[row], ends[row], KINDS[kinds[row]], words[name], self, row)
            for row, name in enumerate(self.names)
            if name in wanted and kinds[row] <= EMPTY
        ]

    def named(self, *names: str) -> Iterator[Unit]:
        """The tags of these names one by one, end tags included."""
        wanted = self.numbers_of(frozenset(names))
        return (self.unit(row) for row, name in enumerate(self.names) if name in wanted and self.kinds[row] <= END)

    def counts(self) -> dict[str, tuple[int, int]]:
        """How many start and empty tags there are of each name, and where the first one is, in the order of these places."""
        counts: dict[int, int] = {}
        firsts: dict[int, int] = {}
        for row, (kind, name) in enumerate(zip(self.kinds, self.names, strict=True)):
            if kind <= EMPTY:
                counts[name] = counts.get(name, 0) + 1
                firsts.setdefault(name, row)
        return {self.words[name]: (count, self.starts[firsts[name]]) for name, count in counts.items()}

    def tag_names(self) -> set[str]:
        """The names of the tags."""
        return {self.words[name] for name in {name for name, kind in zip(self.names, self.kinds, strict=True) if kind <= END}}

    def first_tag(self) -> Unit | None:
        """The first start or empty tag."""
        row = next((row for row, kind in enumerate(self.kinds) if kind <= EMPTY), None)
        return None if row is None else self.unit(row)

    def last_tag_before(self, offset: int) -> Unit | None:
        """The last tag that begins before a place."""
        rows = self.rows[: bisect_left(self.places, offset)]
        row = next((row for row in reversed(rows) if self.kinds[row] <= END), None)
        return None if row is None else self.unit(row)

    def after(self, offset: int) -> Iterator[Unit]:
        """The units that begin after a place."""
        return map(self.unit, self.rows_from(offset + 1))

    def rows_from(self, offset: int) -> Sequence[int]:
        """The rows of the units that begin at a place or after it."""
        return self.rows[bisect_left(self.places, offset) :]

    def end_tags(self) -> dict[int, int]:
        """The numbers of the end tags that belong to start tags, by the places of these, as `end_of` says it of one."""
        found: dict[int, int] = {}
        open_tags: dict[int, list[int]] = {}
        for number, row in enumerate(self.rows):
            kind = self.kinds[row]
            if kind == START:
                open_tags.setdefault(self.names[row], []).append(self.starts[row])
            elif kind == END and open_tags.get(self.names[row]):
                found[open_tags[self.names[row]].pop()] = number
        return found


def read_units(reply: Printed) -> Units:
    """The units that the table has."""
    units, begin = Units(), 0
    try:
        while begin < len(reply.text):
            end = reply.text.index(b"\n", min(begin + CHUNK, len(reply.text) - 1)) + 1
            units.add(reply.text[begin:end])
            begin = end
        units.finish(reply.size)
    except (ValueError, KeyError, IndexError, OverflowError):
        raise CannotRun("the answer of tml to `spans` cannot be read") from None
    return units


def unit_at(units: Units, offset: int) -> Unit | None:
    """The unit that begins at a place."""
    number = bisect_left(units.places, offset)
    return units[number] if number < len(units) and units.places[number] == offset else None


def open_tags(units: Units, offset: int) -> list[Unit]:
    """The start tags that are open before a place, the innermost one last; up to there the tags have to nest."""
    rows: list[int] = []
    for row in units.rows[: bisect_left(units.places, offset)]:
        kind = units.kinds[row]
        if kind == START:
            rows.append(row)
        elif kind == END and rows:
            rows.pop()
    return list(map(units.unit, rows))


def end_of(units: Units, tag: Unit) -> Unit | None:
    """The end tag that belongs to a start tag: the first one of its name that no start tag of this name between them takes.

    This looks at the units after the tag; for many tags there is `Units.end_tags`.
    """
    depth = 0
    for row in units.rows_from(tag.start + 1):
        kind = units.kinds[row]
        if kind not in (START, END) or units.words[units.names[row]] != tag.name:
            continue
        if kind == START:
            depth += 1
        elif depth == 0:
            return units.unit(row)
        else:
            depth -= 1
    return None
