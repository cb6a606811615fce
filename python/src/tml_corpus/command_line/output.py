"""Standard output and standard error of the programs, and how they end.

What cannot be printed ends a program with status 2 and one line on standard error, so that a report that was cut off never
looks like a judgement. Where the reader has ended there is no such line. What standard error does not take is lost.
"""

from __future__ import annotations

import io
import os
import re
import select
import sys
from argparse import ArgumentParser, HelpFormatter, RawDescriptionHelpFormatter
from collections.abc import Callable, Sequence
from contextlib import suppress
from typing import Any, NoReturn

from tml.attempts import cause
from tml.running import Expected

from .. import VERSION
from ..files.finding import CannotRead, reason, shown
from ..files.writing import end_by_signals
from .statuses import Status

INPUT, OUTPUT, ERROR = range(3)
USUAL = 80
"""How many characters are a line where it is not known how wide the terminal is."""

TOOL = re.compile(r"\btools/[a-z0-9-]+")

CLOSED: set[int] = set()
"""The streams that were closed when the program began."""


class CannotWrite(BaseException):
    """Standard output takes no more. That is nothing of the file that is worked on, and so no `Exception`."""


class ReaderGone(CannotWrite):
    """What reads standard output has ended, as `head` does once it has its lines."""


class StandardOutput(io.FileIO):
    """Standard output, of which each failure is known from that of other files."""

    def write(self, data: bytes) -> int:  # type: ignore[override]
        """Writes what there is room for."""
        try:
            while (size := super().write(data)) is None:
                select.select([], [self], [])
            return size
        except BrokenPipeError:
            raise ReaderGone from None
        except OSError as error:
            raise CannotWrite(f"standard output cannot be written: {reason(error)}") from None


class StandardError(io.FileIO):
    """Standard error, which never fails."""

    def write(self, data: bytes) -> int:  # type: ignore[override]
        """Writes what there is room for."""
        try:
            size = super().write(data)
        except OSError:
            size = None
        return len(data) if size is None else size


class Formatter(HelpFormatter):
    """Lays out the help as wide as the terminal is."""

    def __init__(self, prog: str) -> None:
        # Without a width the module `shutil` is imported for each parser, which takes longer than all the rest of it.
        super().__init__(prog, width=columns() - 2)


class RawFormatter(Formatter, RawDescriptionHelpFormatter):
    """The same with the lines of the description as they are."""


def columns() -> int:
    """How wide the terminal is."""
    with suppress(ValueError):
        if (said := int(os.environ.get("COLUMNS", ""))) > 0:
            return said
    with suppress(OSError):
        return os.get_terminal_size(OUTPUT).columns or USUAL
    return USUAL


class Parser(ArgumentParser):
    """The words of a command line. What is wrong with them is said with names as they may be printed."""

    def __init__(self, formatter_class: type[HelpFormatter] = Formatter, **options: Any) -> None:
        super().__init__(formatter_class=formatter_class, **options)

    def error(self, message: str) -> NoReturn:
        """Says what is wrong, and ends the program."""
        super().error(shown(message))

    def format_help(self) -> str:
        """The help, whose examples name the program as it was called."""
        return as_called(super().format_help(), sys.argv[0])


def as_called(text: str, program: str) -> str:
    """A text that names the file of a program in tools/ of this repository: by the name of the command, where that was called."""
    folder, name = os.path.split(program)
    return text if os.path.basename(os.path.abspath(folder)) == "tools" else TOOL.sub(lambda _: name, text)


class ProgramParser(Parser):
    """The words of a whole program, which tells its version too."""

    def __init__(self, **options: Any) -> None:
        super().__init__(**options)
        self.add_argument("--version", action="version", version=f"%(prog)s {VERSION}", help="print the version and exit")


def run(work: Callable[[list[str]], int], words: Sequence[str] | None = None) -> int:
    """Runs a program with some words, or those of the command line, and answers its status."""
    open_streams()
    end_by_signals()
    try:
        try:
            if OUTPUT in CLOSED:
                raise CannotWrite("standard output is closed")
            status = work(list(sys.argv[1:] if words is None else words))
        except SystemExit as end:
            status = end.code if isinstance(end.code, int) else Status.TROUBLE
        sys.stdout.flush()
        return status
    except KeyboardInterrupt:
        return complain("interrupted", Status.INTERRUPTED)
    except ReaderGone:
        return Status.TROUBLE
    except (CannotWrite, Expected) as problem:
        return complain(str(problem))
    except MemoryError:
        return complain("out of memory")
    except Exception as error:
        return complain(cause(error))
    finally:
        silence()


def complain(problem: str, status: int = Status.TROUBLE) -> int:
    """Says on one line of standard error what is wrong, and answers the status that goes with it."""
    with suppress(KeyboardInterrupt):
        print(f"{shown(os.path.basename(sys.argv[0]))}: {shown(problem)}", file=sys.stderr)
    return status


def standard_input(most: int) -> bytes:
    """The bytes of standard input, at most so many."""
    if INPUT in CLOSED:
        raise CannotRead("standard input is closed")
    try:
        return sys.stdin.buffer.read(most)
    except OSError as error:
        raise CannotRead(f"standard input cannot be read: {reason(error)}") from None


def open_streams() -> None:
    """Opens standard output and standard error anew.

    In the place of a stream that is closed there is /dev/null, so that no other file gets its number.
    """
    for handle in (INPUT, OUTPUT, ERROR):
        try:
            os.fstat(handle)
        except OSError:
            CLOSED.add(handle)
            os.open(os.devnull, os.O_RDWR)
    encodings = [getattr(stream, "encoding", None) or "utf-8" for stream in (sys.stdout, sys.stderr)]
    output, error = StandardOutput(OUTPUT, "w", closefd=False), StandardError(ERROR, "w", closefd=False)
    sys.stdout = io.TextIOWrapper(io.BufferedWriter(output), encodings[0], "backslashreplace", line_buffering=output.isatty())
    sys.stderr = io.TextIOWrapper(io.BufferedWriter(error), encodings[1], "backslashreplace", line_buffering=True)
    if sys.stdin is None:
        sys.stdin = io.TextIOWrapper(io.BufferedReader(io.FileIO(INPUT, closefd=False)))


def silence() -> None:
    """Flushes standard output, or lets go what it does not take, so that nothing fails when Python ends."""
    with suppress(Exception, CannotWrite):
        sys.stdout.flush()
        return
    null = os.open(os.devnull, os.O_WRONLY)
    os.dup2(null, OUTPUT)
    os.close(null)
