"""Runs very many cases in one process: `command_rows` reads them as a table and prints what was answered to each.

A row of the table wants a status that there is none of, so that each answer is printed. What a text is printed as leaves one thing
open: whether a `\\` at its end stands for itself and a line feed, or for none. So cases with a `\\` in a file go to a process each.
And so do words that name standard input twice: in memory it can be read twice, and on a machine there is nothing left then.
"""

from __future__ import annotations

import os
import re
import subprocess
from collections.abc import Sequence
from pathlib import Path

from differential.cases import STANDARD_INPUT, Case, Memory
from differential.programs import NEVER_ENDED
from reference import Outcome

NO_STATUS = 255
LONGEST = 500_000
"""The most bytes of a file in a table; what is written of it has room."""
MOST_OF_MATRIX = 90
"""The most intervals of a document whose matrix has room in a table: 4,005 lines of at most 245 bytes."""
SECONDS = 120
HIDDEN = re.compile(rb"[^ !\"$-\[\]-~]")
"""The bytes that a table has as an escape: all but printable ones of ASCII, and of these the backslash and the number sign."""
FILE_NAME = re.compile(rb"[A-Za-z0-9._-]+")


def is_for_rows(case: Case) -> bool:
    """Whether a table can have a case."""
    if case.real is not None or any(b"\\" in content or len(content) > LONGEST for content in case.files.values()):
        return False
    if case.words.count(STANDARD_INPUT) > 1 or (case.words[:1] == (b"matrix",) and any(map(is_long_matrix, case.files.values()))):
        return False
    return all(FILE_NAME.fullmatch(name) for name in case.files) and all(is_word(word) for word in case.words)


def is_long_matrix(document: bytes) -> bool:
    """Whether a document may have so many intervals that its matrix has no room."""
    return document.count(b"MAKEINSTANCE") + document.count(b"TIMEX3") > MOST_OF_MATRIX


def is_word(word: bytes) -> bool:
    """Whether a table can have a word: it is to be UTF-8."""
    try:
        word.decode()
    except UnicodeDecodeError:
        return False
    return True


def escaped(text: bytes) -> bytes:
    """A text without a line feed, as a table has it."""
    shown = HIDDEN.sub(lambda found: b"\\x%02X" % found[0][0], text)
    return shown[:-1] + b"\\x20" if shown.endswith(b" ") else shown


def lines_of(text: bytes) -> bytes:
    """The lines of a file of a table."""
    *whole, last = text.split(b"\n")
    shown = b"".join(b"|" + escaped(line) + b"\n" for line in whole)
    return shown + (b"|" + escaped(last) + b"\\\n" if last else b"")


def word_of(word: bytes) -> bytes:
    """A word of a command."""
    return re.sub(rb"[^A-Za-z0-9._-]", lambda found: b"\\x%02X" % found[0][0], word) or b"''"


def settings_of(memory: Memory) -> bytes:
    """The lines that say how the devices are."""
    numbers = [("reads-of", memory.reads_of), ("writes-of", memory.writes_of), ("room", memory.room)]
    numbers += [("fail-read", number) for number in memory.failing_reads] + [("fail-write", number) for number in memory.failing_writes]
    return "".join(f"{name} {number}\n" for name, number in numbers).encode()


def row_of(case: Case) -> bytes:
    """A case as a section of a table."""
    files = b"".join(b"file %s\n%s" % (name, lines_of(content)) for name, content in case.files.items())
    words = b"".join(b" " + word_of(word) for word in case.words)
    return b"== case\n%s%s$ tml%s\n[%d]\n" % (files, settings_of(case.memory or Memory()), words, NO_STATUS)


def answers_of(printed: bytes) -> list[Outcome]:
    """The answers that a run printed, in order."""
    found: list[Outcome] = []
    text: list[bytes] | None = None
    for line in printed.split(b"\n"):
        if line.startswith(b"|") and text is not None:
            text.append(line[1:] + b"\n")
        elif line == b"answered":
            text = []
        elif text is not None:
            whole = b"".join(text)
            found.append(Outcome(int(line[1:-1]), whole[:-2] if whole.endswith(b"\\\n") else whole))
            text = None
    return found


class Rows:
    """Runs cases by tables. Where a process ends without all answers, each of its cases is run by a table of its own."""

    def __init__(self, program: Path) -> None:
        self.program = program

    def outcomes(self, cases: Sequence[Case]) -> list[Outcome]:
        """What the program answers to each case."""
        if not cases:
            return []
        status, printed = self.printed(b"".join(map(row_of, cases)))
        found = answers_of(printed) if status == 0 else []
        if len(found) == len(cases):
            return found
        if len(cases) == 1:
            return [Outcome(status or NEVER_ENDED, printed)]
        return [self.outcomes([case])[0] for case in cases]

    def printed(self, table: bytes) -> tuple[int, bytes]:
        """The status of a run over a table, and what it printed."""
        try:
            done = subprocess.run([os.fsencode(self.program)], input=table, capture_output=True, check=False, timeout=SECONDS)
        except subprocess.TimeoutExpired:
            return NEVER_ENDED, b""
        return done.returncode, done.stdout + done.stderr
