"""The program `tml` as a process for each question."""

from __future__ import annotations

from collections.abc import Iterator, Sequence
from contextlib import contextmanager
from typing import IO

from .longest import longest
from .replies import refusal
from .running import CannotRun, run

__all__ = ["Process"]

SECOND = {"verify": "evidence", "confirm": "placing", "score": "key"}
"""What the second file of a question is called."""


class Process:
    """The program that lies at a path. Threads may ask it at once."""

    def __init__(self, path: str) -> None:
        self.path = path

    def answer(self, command: str, files: Sequence[bytes], arguments: Sequence[str] = ()) -> tuple[int, bytes]:
        """The status and the text of a command over files, two at most, with the words that follow them.

        The first file is its standard input, the second one has no name. What `tml` would not answer is raised as a problem.
        """
        first, second = (*files, None, None)[:2]
        with open_file(second, f"the {SECOND.get(command, 'second file')}") as file:
            named = ["-"] * (first is not None) + ([] if file is None else [f"/dev/fd/{file.fileno()}"])
            status, text = run([self.path, command, *named, *arguments], first or b"", longest(command), file)
        problem = refusal([command], status, text, len(first or b""))
        if problem is not None:
            raise CannotRun(problem)
        return status, text


@contextmanager
def open_file(file: bytes | None, called: str) -> Iterator[IO[bytes] | None]:
    """The second file of a question, if there is one: open, without a name."""
    if file is None:
        yield None
        return
    import tempfile

    try:
        without_name = tempfile.TemporaryFile()
        without_name.write(file)
        without_name.seek(0)
    except OSError as error:
        raise CannotRun(f"{called} cannot be kept: {(error.strerror or str(error)).lower()}") from None
    with without_name:
        yield without_name
