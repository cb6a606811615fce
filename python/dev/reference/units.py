"""Bytes, units, the cut and references: the section *Units of a document* of docs/DEFINITIONS.md."""

from __future__ import annotations

import re
from dataclasses import dataclass
from enum import Enum

from .faults import Fault, Kind

BYTE_ORDER_MARK = b"\xef\xbb\xbf"
WHITE_SPACE = b" \t\r\n"

SPACE = rb"[ \t\r\n]"
NAME = rb"[A-Za-z_:\x80-\xff][A-Za-z_:\x80-\xff0-9.-]*"
VALUE = rb"(?:\"[^<\"]*\"|'[^<']*')"
ATTRIBUTE = SPACE + rb"+" + NAME + SPACE + rb"*=" + SPACE + rb"*" + VALUE
ATTRIBUTES = rb"(?:" + ATTRIBUTE + rb")*"


class UnitKind(Enum):
    """The kinds of units, by the words that are printed."""

    BOM = "bom"
    DECLARATION = "declaration"
    DOCTYPE = "doctype"
    COMMENT = "comment"
    TEXT = "text"
    START = "start"
    END = "end"
    EMPTY = "empty"


SPELLINGS: tuple[tuple[UnitKind, re.Pattern[bytes]], ...] = (
    (UnitKind.TEXT, re.compile(rb"[^<]+")),
    (UnitKind.START, re.compile(rb"<(" + NAME + rb")" + ATTRIBUTES + SPACE + rb"*>")),
    (UnitKind.END, re.compile(rb"</(" + NAME + rb")" + SPACE + rb"*>")),
    (UnitKind.EMPTY, re.compile(rb"<(" + NAME + rb")" + ATTRIBUTES + SPACE + rb"*/>")),
    (UnitKind.COMMENT, re.compile(rb"<!--.*?-->", re.DOTALL)),
    (UnitKind.DECLARATION, re.compile(rb"<\?xml" + SPACE + rb".*?\?>", re.DOTALL)),
    (UnitKind.DOCTYPE, re.compile(rb"<!DOCTYPE" + SPACE + rb"[^\[<>]*>")),
)
"""The spelling of each kind but Bom. No two of them begin alike, and a body that is spelled by `.*?` ends as soon as it can."""

PARTS = re.compile(SPACE + rb"+(" + NAME + rb")" + SPACE + rb"*=" + SPACE + rb"*(" + VALUE + rb")")
"""An attribute after its white space: its name, and its value with the quotes."""

REFERENCE = re.compile(rb"&(?:lt|gt|amp|quot|apos|#[0-9]{1,7}|#x[0-9A-Fa-f]{1,6});")


@dataclass(frozen=True)
class Attribute:
    """An attribute: its span runs from the first byte of its name to past the closing quote."""

    start: int
    end: int
    name: bytes
    value: bytes

    def value_start(self) -> int:
        """The place of the first byte of the value."""
        return self.end - 1 - len(self.value)


@dataclass(frozen=True)
class Unit:
    """A unit with its span, its kind, the name of a tag and its attributes, and the source at its span."""

    start: int
    end: int
    kind: UnitKind
    text: bytes
    name: bytes = b""
    attributes: tuple[Attribute, ...] = ()

    def opens(self) -> bool:
        """Whether it is a start tag or an empty tag."""
        return self.kind in (UnitKind.START, UnitKind.EMPTY)

    def is_tag(self) -> bool:
        """Whether it is a tag of any kind."""
        return self.opens() or self.kind == UnitKind.END


def unit_at(source: bytes, place: int) -> Unit | None:
    """The unit that the bytes at a place spell."""
    if place == 0 and source.startswith(BYTE_ORDER_MARK):
        return Unit(0, 3, UnitKind.BOM, BYTE_ORDER_MARK)
    for kind, spelling in SPELLINGS:
        found = spelling.match(source, place)
        if found:
            name = found.group(1) if spelling.groups else b""
            attributes = attributes_of(source, place + 1 + len(name), found.end()) if kind in (UnitKind.START, UnitKind.EMPTY) else ()
            return Unit(place, found.end(), kind, found.group(), name, attributes)
    return None


def attributes_of(source: bytes, place: int, end: int) -> tuple[Attribute, ...]:
    """The attributes that stand between the name of a tag and its end."""
    found = []
    match = PARTS.match(source, place, end)
    while match:
        found.append(Attribute(match.start(1), match.end(), match.group(1), match.group(2)[1:-1]))
        match = PARTS.match(source, match.end(), end)
    return tuple(found)


def cut(source: bytes) -> tuple[list[Unit], int]:
    """*The cut*: the units of a source from its first byte on, and where the rest begins."""
    units: list[Unit] = []
    place = 0
    while place < len(source):
        unit = unit_at(source, place)
        if unit is None:
            break
        units.append(unit)
        place = unit.end
    return units, place


def bad_reference(units: list[Unit]) -> int | None:
    """*References*: the place of the first `&` in a text or a value with which no reference begins."""
    for unit in units:
        parts = [(unit.start, unit.text)] if unit.kind == UnitKind.TEXT else [(one.value_start(), one.value) for one in unit.attributes]
        for start, part in parts:
            for found in re.finditer(rb"&", part):
                if not REFERENCE.match(part, found.start()):
                    return start + found.start()
    return None


def longest_utf8(source: bytes) -> int:
    """The length of the longest prefix that is UTF-8."""
    try:
        source.decode("utf-8")
    except UnicodeDecodeError as error:
        return error.start
    return len(source)


def source_fault(source: bytes) -> Fault | None:
    """*The fault of a source*: the first of the three that applies."""
    valid = longest_utf8(source)
    if valid < len(source):
        return Fault(Kind.NotUtf8, valid)
    units, rest = cut(source)
    bad = bad_reference(units)
    if bad is not None:
        return Fault(Kind.BadReference, bad)
    return Fault(Kind.BadMarkup, rest) if rest < len(source) else None


def table_of(units: list[Unit]) -> bytes:
    """The table of `spans` (*Texts*): a line for each unit, and one for each attribute of a start or empty tag."""
    lines = []
    for unit in units:
        lines.append(b"%d %d %s" % (unit.start, unit.end, unit.kind.value.encode()) + (b" " + unit.name if unit.is_tag() else b""))
        lines += [b"%d %d attribute %s" % (one.start, one.end, one.name) for one in unit.attributes]
    return b"".join(line + b"\n" for line in lines)
