"""The nesting of tags and the tree: the section *The tree of a document* of docs/DEFINITIONS.md."""

from __future__ import annotations

from collections.abc import Iterator
from dataclasses import dataclass

from .faults import Fault, Kind, first_fault
from .units import WHITE_SPACE, Attribute, Unit, UnitKind

ROOT = b"TimeML"
LINK_TAGS = (b"MAKEINSTANCE", b"TLINK", b"ALINK", b"SLINK")
WRAPPERS = b"DOCID DOCNO DOC DCT TITLE EXTRAINFO TEXT BODY HEADLINE P p S s ENAMEX NUMEX CONFIDENCE TIMEX3INTERVAL".split()
KNOWN_TAGS = (ROOT, b"EVENT", b"TIMEX3", b"SIGNAL", *LINK_TAGS, *WRAPPERS)
DEEPEST = 32


@dataclass(frozen=True)
class Path:
    """*Path*: the names of the open tags, the innermost one last, and whether the root was seen whole."""

    names: tuple[bytes, ...] = ()
    root_seen: bool = False

    def innermost(self) -> bytes | None:
        """The name of the innermost open tag, if one is open."""
        return self.names[-1] if self.names else None

    def after(self, unit: Unit) -> Path:
        """The path after a further unit that breaks no rule."""
        if unit.kind == UnitKind.START:
            return Path((*self.names, unit.name), self.root_seen)
        if unit.kind == UnitKind.END:
            return Path(self.names[:-1], len(self.names) == 1)
        if unit.kind == UnitKind.EMPTY and not self.names:
            return Path((), True)
        return self


def is_white(text: bytes) -> bool:
    """Whether a text is only white space."""
    return not text.strip(WHITE_SPACE)


def is_misplaced(units: list[Unit], number: int, path: Path) -> bool:
    """Rule 7, of the unit with this number after units that have this path."""
    unit = units[number]
    outside = path.innermost() is None
    inside_link = path.innermost() in LINK_TAGS
    if unit.kind == UnitKind.DECLARATION:
        return any(before.kind != UnitKind.BOM for before in units[:number])
    if unit.kind == UnitKind.DOCTYPE:
        return any(before.is_tag() or before.kind == UnitKind.DOCTYPE for before in units[:number])
    if unit.kind == UnitKind.TEXT:
        return (outside or inside_link) and not is_white(unit.text)
    if unit.opens():
        first = outside and not path.root_seen
        return inside_link or (first and unit.name != ROOT) or path.root_seen or (not outside and unit.name == ROOT)
    return False


def broken_rules(units: list[Unit], number: int, path: Path) -> set[Kind]:
    """*Rules*: those that the unit with this number breaks, after units that have this path."""
    unit = units[number]
    broken = set()
    if unit.opens() and unit.name not in KNOWN_TAGS:
        broken.add(Kind.UnknownTag)
    if unit.kind == UnitKind.END and unit.name != path.innermost():
        broken.add(Kind.Unbalanced)
    if is_misplaced(units, number, path):
        broken.add(Kind.Misplaced)
    if unit.opens() and len(path.names) == DEEPEST:
        broken.add(Kind.TooDeep)
    return broken


def tree_fault(units: list[Unit], length: int) -> Fault | None:
    """*The tree fault* of the units of a document of so many bytes."""
    path = Path()

    def judged() -> Iterator[tuple[int, set[Kind]]]:
        nonlocal path
        for number, unit in enumerate(units):
            yield unit.start, broken_rules(units, number, path)
            path = path.after(unit)

    fault = first_fault(judged())
    if fault is None and not path.root_seen:
        return Fault(Kind.Unclosed, length)
    return fault


@dataclass(frozen=True)
class Leaf:
    """A text or a comment of the tree, as it is written."""

    text: bytes


@dataclass(frozen=True)
class Element:
    """An element of the tree, with the nodes inside it in order."""

    name: bytes
    attributes: tuple[Attribute, ...]
    children: list[Element | Leaf]


def tree_of(units: list[Unit]) -> Element:
    """The tree of a document without a tree fault: the one element in it."""
    outside = Element(b"", (), [])
    opened = [outside]
    for unit in units:
        if unit.opens():
            element = Element(unit.name, unit.attributes, [])
            opened[-1].children.append(element)
            if unit.kind == UnitKind.START:
                opened.append(element)
        elif unit.kind == UnitKind.END:
            opened.pop()
        elif unit.kind in (UnitKind.TEXT, UnitKind.COMMENT):
            opened[-1].children.append(Leaf(unit.text))
    [root] = [node for node in outside.children if isinstance(node, Element)]
    return root
