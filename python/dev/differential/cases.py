"""What a case is: words, files, and how the devices behave."""

from __future__ import annotations

from collections.abc import Mapping
from dataclasses import dataclass, field
from enum import Enum

STANDARD_INPUT = b"-"


class Output(Enum):
    """What standard output is in a run of its own."""

    PIPE = "pipe"
    FULL = "full"
    GONE = "gone"
    CLOSED = "closed"


@dataclass(frozen=True)
class Memory:
    """Devices in memory, as a table of cases has them: how much a call takes, the calls that fail, and the room."""

    reads_of: int = 4096
    writes_of: int = 4096
    failing_reads: tuple[int, ...] = ()
    failing_writes: tuple[int, ...] = ()
    room: int = 1_048_576

    def written_at_most(self) -> int:
        """How many bytes are written at most, by the room and the first write that fails."""
        most = max(self.writes_of, 1)
        return min([self.room, *(number * most for number in self.failing_writes)])


@dataclass(frozen=True)
class Real:
    """Devices of the machine: what standard output is, whether standard input is closed, and folders in the place of files."""

    output: Output = Output.PIPE
    input_closed: bool = False
    folders: tuple[bytes, ...] = ()


@dataclass(frozen=True)
class Case:
    """A question to `tml`. At most one of `memory` and `real` is given; without either nothing fails."""

    subject: str
    words: tuple[bytes, ...]
    files: Mapping[bytes, bytes] = field(default_factory=dict)
    memory: Memory | None = None
    real: Real | None = None

    def readings(self) -> list[bytes]:
        """The files that the command may come to read, in order."""
        match self.words:
            case ():
                return [STANDARD_INPUT]
            case (b"spans" | b"check" | b"dates" | b"solve" | b"relations" | b"canon" | b"matrix" | b"reduce" | b"seconds", name):
                return [name]
            case (b"ask", name, _, _, _) | (b"possible", name, _, _):
                return [name]
            case (b"verify" | b"join" | b"score" | b"confirm", name, other):
                return [name, other]
            case (b"renew", name):
                return [name]
        return []
