"""Reads a table of cases as `command_rows` does: `crates/command_rows/stdin` says what its lines are.

A command may write to a file that commands below it read, so a row is there only once the ones above it were answered.
"""

from __future__ import annotations

import re
from collections.abc import Iterator, Sequence
from dataclasses import dataclass, field

from differential.cases import STANDARD_INPUT, Case, Memory
from reference import Outcome

NUMBER = rb"\#"
"""What stands for the number of a repetition."""
ESCAPE = re.compile(rb"\\(?:x([0-9A-Fa-f]{2})|(#))?")
PIECE = re.compile(rb"(?:(\d+)\*)?\|(.*)")
WHOLE = re.compile(rb"=(\d*) (.*)")
SETTING = re.compile(rb"(reads-of|writes-of|room|fail-read|fail-write) (\d+)")
SEVERAL = re.compile(rb"each (\d+)\.\.(\d+)")
COMMAND = b"$ tml"


@dataclass(frozen=True)
class Row:
    """A command of a table: its section and line, what is wanted of it, and the file that its text goes to."""

    section: str
    line: int
    case: Case
    wanted: Outcome
    kept_as: bytes | None

    def is_right(self, outcome: Outcome) -> bool:
        """Whether an outcome is what is wanted. Of a text that goes to a file nothing is left."""
        return outcome == self.wanted if self.kept_as is None else (outcome.status, b"") == (self.wanted.status, self.wanted.text)


@dataclass
class Pending:
    """What was read of a row: the lines of its commands, and the text that is wanted."""

    commands: list[tuple[int, bytes]] = field(default_factory=list)
    wanted: bytearray = field(default_factory=bytearray)


class Table:
    """The rows of a table, one after another. What is to be in a file is handed to `keep` before the next one is taken."""

    def __init__(self, text: bytes) -> None:
        self.lines = text.split(b"\n")
        self.common: dict[bytes, bytes] = {}
        self.own: dict[bytes, bytes] = {}
        self.section: str | None = None
        self.settings: list[tuple[str, int]] = []
        self.row: Pending | None = None
        self.file: bytes | None = None
        self.begun = bytearray()

    def keep(self, name: bytes, text: bytes) -> None:
        """Makes a file of a text. Those above the first section are there in all."""
        (self.common if self.section is None else self.own)[name] = text

    def rows(self) -> Iterator[Row]:
        """The rows, where one that stands for several is each of them."""
        lines = enumerate(self.lines, 1)
        for number, line in lines:
            several = SEVERAL.fullmatch(line)
            if several is None:
                yield from self.taken(number, line)
                continue
            kept = list(to_status(lines))
            for count in range(int(several[1]), int(several[2]) + 1):
                for place, one in kept:
                    yield from self.taken(place, one.replace(NUMBER, b"%d" % count))

    def taken(self, number: int, line: bytes) -> Iterator[Row]:
        """Takes a line, and gives the rows that end there."""
        piece, whole = PIECE.fullmatch(line), WHOLE.fullmatch(line)
        if piece:
            self.append(repeated(line_of(piece[2]), int(piece[1] or 1)))
        elif whole:
            self.append(self.content(whole[2])[: int(whole[1]) if whole[1] else None])
        elif line.startswith(COMMAND) and not (self.row and self.row.wanted):
            self.end_file()
            self.row = self.row or Pending()
            self.row.commands.append((number, line.removeprefix(COMMAND)))
        elif self.row is not None:
            yield from self.ended(int(line[1:-1]))
        else:
            self.end_file()
            self.begin(line)

    def append(self, text: bytes) -> None:
        """Appends to the text of the row or of the file."""
        if self.row is not None:
            self.row.wanted += text
        elif self.file is not None:
            self.begun += text
        else:
            raise ValueError(text)

    def content(self, name: bytes) -> bytes:
        """What a file holds."""
        return self.own[name] if name in self.own else self.common[name]

    def end_file(self) -> None:
        """The file that was begun is there."""
        if self.file is not None:
            self.keep(self.file, bytes(self.begun))
        self.file, self.begun = None, bytearray()

    def begin(self, line: bytes) -> None:
        """Takes a line outside of files and rows."""
        setting = SETTING.fullmatch(line)
        if line.startswith(b"== "):
            self.section, self.own = line[3:].decode(), {}
        elif line.startswith(b"file "):
            self.file, first, text = line[5:].partition(b"|")
            self.begun += unescaped(line_of(text)) if first else b""
        elif setting:
            self.settings.append((setting[1].decode(), int(setting[2])))
        elif line and not line.startswith(b"#"):
            raise ValueError(line)

    def ended(self, status: int) -> Iterator[Row]:
        """The rows of the commands that end with a status. The next row has other devices."""
        assert self.row is not None and self.section is not None
        row, memory = self.row, memory_of(self.settings)
        wanted = bytes(row.wanted)
        self.row, self.settings = None, []
        for number, command in row.commands:
            command, given, text = command.partition(b" <<< ")
            command, redirected, name = command.partition(b" > ")
            words = tuple(unescaped(b"" if word == b"''" else word) for word in command.split(b" ")[1:])
            files = {**self.common, **self.own, **({STANDARD_INPUT: unescaped(text)} if given else {})}
            case = Case(self.section, words, files, memory)
            case = Case(self.section, words, {name: files[name] for name in case.readings() if name in files}, memory)
            yield Row(self.section, number, case, Outcome(status, wanted), name if redirected else None)


def to_status(lines: Iterator[tuple[int, bytes]]) -> Iterator[tuple[int, bytes]]:
    """The lines of a row: those up to its status."""
    for number, line in lines:
        yield number, line
        if line.startswith(b"["):
            return


def memory_of(settings: Sequence[tuple[str, int]]) -> Memory:
    """The devices of which this is said."""
    said = {name.replace("-", "_"): number for name, number in settings if not name.startswith("fail-")}
    reads, writes = (tuple(number for name, number in settings if name == what) for what in ("fail-read", "fail-write"))
    return Memory(**said, failing_reads=reads, failing_writes=writes)


def line_of(text: bytes) -> bytes:
    r"""The text with the line feed of its line, or without it where it ends with a `\`."""
    return text[:-1] if text.endswith(b"\\") else text + b"\n"


def repeated(text: bytes, times: int) -> bytes:
    """The bytes that a text stands for so many times, each with its number."""
    if NUMBER not in text:
        return unescaped(text) * times
    return b"".join(unescaped(text, count) for count in range(times))


def unescaped(text: bytes, number: int = 0) -> bytes:
    """The bytes that a text stands for once."""

    def byte(found: re.Match[bytes]) -> bytes:
        if found[1] is None and found[2] is None:
            raise ValueError(text)
        return bytes.fromhex(found[1].decode()) if found[1] is not None else b"%d" % number

    return ESCAPE.sub(byte, text)
