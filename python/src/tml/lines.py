"""The lines of texts that are answered: words that one space separates, and counts before what they count."""

from __future__ import annotations

import io
from collections.abc import Iterator, Mapping, Sequence
from itertools import chain
from typing import NamedTuple

from .misuse import ByName

__all__ = ["Ranks", "Step"]


class Ranks(NamedTuple):
    """Where an interval starts and ends in a timeline."""

    start: int
    end: int


class Step(NamedTuple):
    """A step of a walk or a line of a cycle, as the text has it: `via K T`, `span I`, `calendar P Q`, or of a cycle `lower P` and others.

    Point 2 I is the start of interval I, and point 2 I + 1 its end.
    """

    kind: str
    first: int
    second: int = 0


def step_of(words: Sequence[str]) -> Step:
    """A step of a walk or a line of a cycle."""
    return Step(words[0], *map(int, words[1:]))


def lines_of(text: bytes) -> Iterator[list[str]]:
    """The words of each line, one line after another."""
    return (line.decode().removesuffix("\n").split(" ") for line in io.BytesIO(text))


class Evidence:
    """The lines of a text with timelines or walks, read one after another; those of printed evidence of one claim from its kind on."""

    def __init__(self, text: bytes, head: int = 2) -> None:
        self.rest = lines_of(text)
        self.take(head)

    def peek(self) -> list[str]:
        """The next line, which stays the next one."""
        line = next(self.rest)
        self.rest = chain([line], self.rest)
        return line

    def take(self, count: int) -> list[list[str]]:
        """This number of lines."""
        return [next(self.rest) for _ in range(count)]

    def counted(self) -> list[list[str]]:
        """As many lines as the next one says."""
        return self.take(int(next(self.rest)[1]))

    def ranks(self, names: Sequence[str]) -> Mapping[str, Ranks]:
        """A timeline, by the names of the intervals."""
        return ByName((name, Ranks(int(start), int(end))) for name, (_, start, end) in zip(names, self.counted(), strict=True))

    def walk(self) -> tuple[Step, ...]:
        """A walk."""
        return tuple(map(step_of, self.counted()))
