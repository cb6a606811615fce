"""Tables of strangers: lines with words, and where a word stands that is not what it should be."""

from __future__ import annotations

import re
from collections.abc import Iterator
from typing import NamedTuple

from tml.running import Expected

from ..files.finding import LONGEST_LINE, CannotRead, lines_of

MOST_DIGITS = 9
NUMBER = re.compile(rf"[0-9]{{1,{MOST_DIGITS}}}")

NOT_XML = re.compile("[\x00-\x08\x0b\x0c\x0e-\x1f\ufffe\uffff]")
"""The characters of UTF-8 that no document in XML has."""


class BadTable(Expected):
    """A table is not what this program takes it for: the sentence has its file, line and column."""


class Word(NamedTuple):
    """A word of a table, and where it stands: the column counts characters from 1."""

    text: str
    path: str
    line: int
    column: int

    def wrong(self, reason: str) -> BadTable:
        """What is wrong with it, at its place."""
        return wrong(self.path, self.line, self.column, reason)

    def number(self) -> int:
        """The number that it is."""
        if not NUMBER.fullmatch(self.text):
            raise self.wrong(f"{self.text[:40]!r} is not a number of at most {MOST_DIGITS} digits")
        return int(self.text)


def wrong(path: str, line: int, column: int, reason: str) -> BadTable:
    """What is wrong at a place of a table."""
    return BadTable(f"{path}:{line}:{column}: {reason}")


def rows(path: str, tabs: bool = True) -> Iterator[list[Word]]:
    """The lines of a table that are not empty, cut into words by each tab, or by white space.

    The table has to be a regular file, since a pipe might never end, and UTF-8.
    """
    try:
        for number, raw in enumerate(lines_of(path), 1):
            line = decoded(path, number, raw)
            words = by_tabs(line) if tabs else [(word.start() + 1, word[0]) for word in re.finditer(r"\S+", line)]
            if line and words:
                yield [Word(text, path, number, column) for column, text in words]
    except CannotRead as problem:
        raise CannotRead(f"{path}: {problem}") from None


def decoded(path: str, number: int, raw: bytes) -> str:
    """A line of a table as text, without its end."""
    if len(raw) > LONGEST_LINE:
        raise wrong(path, number, 1, f"the line has more than {LONGEST_LINE:,} bytes")
    try:
        line = raw.rstrip(b"\r\n").decode("utf-8")
    except UnicodeDecodeError as error:
        column = len(raw[: error.start].decode("utf-8")) + 1
        raise wrong(path, number, column, f"the byte {raw[error.start]:02X} is not UTF-8") from None
    unknown = NOT_XML.search(line)
    if unknown is not None:
        raise wrong(path, number, unknown.start() + 1, f"the character U+{ord(unknown[0]):04X} is not allowed in XML")
    return line


def by_tabs(line: str) -> list[tuple[int, str]]:
    """What stands between the tabs of a line, with columns."""
    words, column = [], 1
    for text in line.split("\t"):
        words.append((column, text))
        column += len(text) + 1
    return words


def at_least(words: list[Word], columns: int, what: str) -> list[Word]:
    """The words, of which there have to be so many."""
    if len(words) < columns:
        last = words[-1]
        raise wrong(last.path, last.line, last.column + len(last.text), f"{len(words)} of {columns} columns: {what}")
    return words
