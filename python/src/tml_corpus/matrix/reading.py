"""What a document leaves open, as `tml matrix` prints it: there may be many lines, which go to a file without a name."""

from __future__ import annotations

import tempfile
from collections.abc import Sequence

from tml.matrices import APART, Matrix, read_matrix
from tml.statuses import BASE_RELATIONS

from ..asking.program import ACCEPTED, CannotRun, Program, Reply
from ..files.finding import reason

LONGEST_RELATION = max(map(len, BASE_RELATIONS))

NOT_FITTING = "the answers of tml to `solve` and `matrix` do not belong together"


def ask_matrix(program: Program, document: bytes, intervals: Sequence[str]) -> Matrix | Reply:
    """What `tml matrix` prints of a document with these intervals; or the reply where it is accepted by no timeline, or not at all."""
    try:
        with tempfile.TemporaryFile() as file:
            reply = program.matrix(document, file)
            return read_matrix(file, intervals) if reply.status == ACCEPTED else reply
    except OSError as error:
        raise CannotRun(f"the answer of tml to `matrix` cannot be kept: {reason(error)}") from None


def matrix_of(program: Program, document: bytes, intervals: Sequence[str]) -> Matrix:
    """The same of a document that some timeline fits."""
    found = ask_matrix(program, document, intervals)
    if isinstance(found, Reply):
        raise CannotRun(NOT_FITTING)
    return found


class Tally:
    """What is counted of the lines that `tml matrix` prints of a document, as they come in parts, and one line of them.

    To make a matrix of half a million lines takes longer than `tml` takes to print them.
    """

    def __init__(self, intervals: Sequence[str], number: int) -> None:
        self.number = number
        """The number of the line that is wanted, from 0 on."""
        self.most = 2 * max(map(len, intervals), default=0) + 2 + LONGEST_RELATION
        """How many bytes the line of a decided pair has at most."""
        self.line = b""
        self.lines = self.decided = 0
        self.rest = b""

    def take(self, part: bytes) -> None:
        """Takes the next part."""
        *lines, self.rest = (self.rest + part).split(b"\n")
        if 0 <= self.number - self.lines < len(lines):
            self.line = lines[self.number - self.lines]
        self.lines += len(lines)
        # A line has two names, and is that of a decided pair where one relation comes after them. Most parts have no line so short.
        if min(map(len, lines), default=self.most + 1) <= self.most:
            self.decided += sum([line.count(b" ") == 2 for line in lines])


def tally_of(program: Program, document: bytes, matrix: Matrix, left: int, right: int) -> Tally:
    """What is counted of a document that some timeline fits, with the intervals of a matrix; and its line on two of these, in order."""
    tally = Tally(matrix.intervals, matrix.place(left, right))
    if program.matrix_in_parts(document, tally.take) != ACCEPTED:
        raise CannotRun(NOT_FITTING)
    if tally.rest or tally.lines != len(matrix.cells):
        raise CannotRun(APART)
    return tally
