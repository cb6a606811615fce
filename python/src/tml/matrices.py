"""What a document leaves open: the base relations of Allen that are possible between each two intervals, kept in little room."""

from __future__ import annotations

import itertools
from array import array
from collections.abc import Iterable, Iterator, Sequence
from dataclasses import dataclass, field
from functools import cached_property
from typing import TYPE_CHECKING, Any

from .misuse import unknown_interval
from .results import Result
from .running import CannotRun
from .statuses import BASE_RELATIONS, INVERSES

if TYPE_CHECKING:
    import pandas

__all__ = ["Matrix"]

APART = "the answers of tml to `check` and `matrix` do not belong together"
Relations = tuple[str, ...]


def turned(relations: Relations) -> Relations:
    """The same base relations the other way round, in their order."""
    others = {INVERSES[relation] for relation in relations}
    return tuple(relation for relation in BASE_RELATIONS if relation in others)


@dataclass(repr=False)
class Matrix(Result):
    """Of each two intervals the base relations that are possible between them. There are few different sets of these."""

    intervals: Sequence[str]
    sets: list[Relations] = field(default_factory=list)
    cells: array[int] = field(default_factory=lambda: array("H"))
    """The numbers of the sets: of each interval and each one after it, in order."""

    def place(self, left: int, right: int) -> int:
        """The number of two intervals among all pairs, from 0 on, where the one stands before the other."""
        return left * (2 * len(self.intervals) - left - 1) // 2 + right - left - 1

    def row(self, left: int) -> array[int]:
        """The numbers of the sets of an interval and of each one after it."""
        begin = self.place(left, left + 1)
        return self.cells[begin : begin + len(self.intervals) - left - 1]

    def between(self, first: int, second: int) -> Relations:
        """The base relations that are possible between two intervals, by their numbers."""
        if first == second:
            return ("SIMULTANEOUS",)
        left, right = sorted((first, second))
        found = self.sets[self.cells[self.place(left, right)]]
        return found if left == first else turned(found)

    def possible(self, first: str, second: str) -> Relations:
        """The base relations that are possible between two intervals, by their names; `UnknownName` where one is none."""
        for name in (first, second):
            if name not in self.numbers:
                raise unknown_interval(name, self.intervals)
        return self.between(self.numbers[first], self.numbers[second])

    def to_frame(self) -> pandas.DataFrame:
        """The matrix as a frame of pandas: in a row and a column the relations that the one can have to the other, with a space between.

        pandas is loaded only here; an `ImportError` says that it is not installed.
        """
        import pandas

        count = range(len(self.intervals))
        cells = [[" ".join(self.between(row, column)) for column in count] for row in count]
        return pandas.DataFrame(cells, index=list(self.intervals), columns=list(self.intervals))

    def to_dict(self) -> dict[str, Any]:
        """The matrix as a dictionary: the intervals, and of each two the relations that are possible."""
        pairs = [
            {"first": self.intervals[left], "second": self.intervals[right], "possible": list(self.sets[number])}
            for left, right, number in self.pairs()
        ]
        return {"result": "Matrix", "intervals": list(self.intervals), "pairs": pairs}

    def _repr_html_(self) -> str:
        from .notebooks import html_of_matrix

        return html_of_matrix(self)

    @cached_property
    def numbers(self) -> dict[str, int]:
        """The number of each interval."""
        return {name: number for number, name in enumerate(self.intervals)}

    def pairs(self) -> Iterator[tuple[int, int, int]]:
        """Each two intervals, and the number of their set, in order."""
        for (left, right), number in zip(itertools.combinations(range(len(self.intervals)), 2), self.cells, strict=True):
            yield left, right, number


def read_matrix(lines: Iterable[bytes], intervals: Sequence[str]) -> Matrix:
    """The matrix whose lines they are: one for each two intervals, in order."""
    matrix, numbers, left = Matrix(intervals), dict[bytes, int](), iter(lines)
    names = [name.encode("utf-8", "surrogateescape") for name in intervals]
    for pair in itertools.combinations(names, 2):
        line, head = next(left, b""), b"%s %s " % pair
        if not line.startswith(head):
            raise CannotRun(APART)
        text = line[len(head) :]
        if text not in numbers:
            numbers[text] = len(matrix.sets)
            matrix.sets.append(relations_of(text))
        matrix.cells.append(numbers[text])
    if next(left, None) is not None:
        raise CannotRun(APART)
    return matrix


def relations_of(text: bytes) -> Relations:
    """The base relations at the end of a line: some, in their order."""
    found = text.decode("utf-8", "replace").removesuffix("\n").split(" ")
    relations = tuple(relation for relation in BASE_RELATIONS if relation in found)
    if not text.endswith(b"\n") or list(relations) != found:
        raise CannotRun("the answer of tml to `matrix` cannot be read")
    return relations
