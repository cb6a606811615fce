"""The kinds of fault and the first fault of a list: the section *The first fault of a list* of docs/DEFINITIONS.md."""

from __future__ import annotations

from collections.abc import Iterable
from dataclasses import dataclass
from enum import IntEnum


class Kind(IntEnum):
    """The seventeen kinds of fault, by their numbers; the name of a member is what is printed."""

    NotUtf8 = 1
    BadReference = 2
    BadMarkup = 3
    UnknownTag = 4
    Unbalanced = 5
    Unclosed = 6
    Misplaced = 7
    TooDeep = 8
    RepeatedAttribute = 9
    MissingAttribute = 10
    BadValue = 11
    Conflict = 12
    BadDate = 13
    DuplicateId = 14
    UnknownReference = 15
    TooManyIntervals = 16
    TooManyLinks = 17


@dataclass(frozen=True)
class Fault:
    """A kind of fault at a place, which is a byte offset from 0."""

    kind: Kind
    place: int

    def line(self) -> bytes:
        """The line of a fault, as `fault 3 BadMarkup 8`."""
        return f"fault {self.kind.value} {self.kind.name} {self.place}\n".encode()


def first_fault(elements: Iterable[tuple[int, set[Kind]]]) -> Fault | None:
    """The first fault of elements that are given in order, each with its place and the rules that it breaks.

    It is that of the first element that breaks a rule: of the rules that it breaks the one with the least number.
    """
    for place, broken in elements:
        if broken:
            return Fault(min(broken), place)
    return None
