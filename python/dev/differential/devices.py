"""Draws devices that fail: calls in memory that give little or fail, and outputs and inputs of the machine."""

from __future__ import annotations

from dataclasses import replace
from random import Random

from differential.cases import Case, Memory, Output, Real
from differential.chances import chance


def draw_memory(random: Random) -> Memory:
    """Devices in memory: small reads and writes, calls that fail, and little room."""
    reads_of = random.choice((0, 1, 7, 100, 4096, 65536, 100000))
    writes_of = random.choice((0, 1, 3, 16, 100, 4096))
    failing_reads = tuple(random.choice((0, 1, 2, 3, 5, 40, 1000)) for _ in range(random.choice((0, 0, 1, 2))))
    failing_writes = tuple(random.choice((0, 1, 2, 5, 30)) for _ in range(random.choice((0, 0, 1, 2))))
    room = random.choice((0, 1, 5, 9, 10, 17, 30, 100, 1_048_576, 1_048_576, 1_048_576))
    return Memory(reads_of, writes_of, failing_reads, failing_writes, room)


def draw_real(random: Random, case: Case) -> Case:
    """A case with a standard output that takes nothing, a closed standard input, or a folder in the place of a file."""
    output = random.choice((Output.PIPE, Output.FULL, Output.GONE, Output.CLOSED))
    closed = chance(random, 0.3) and b"-" not in case.files
    share = 0.5 if output == Output.PIPE and not closed else 0.1
    folders = tuple(name for name in case.files if name != b"-" and chance(random, share))
    files = {name: content for name, content in case.files.items() if name not in folders}
    return replace(case, subject="devices", files=files, real=Real(output, closed, folders))


def with_memory(case: Case, memory: Memory) -> Case:
    """A case over devices in memory. A backslash would leave it open how its text ends, so there is none."""
    files = {name: content.replace(b"\\", b"/") for name, content in case.files.items()}
    return replace(case, subject="devices in memory", files=files, memory=memory)
