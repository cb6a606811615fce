"""The document of standard input, as a file among others: `-`, with a name for the reports."""

from __future__ import annotations

import sys
from collections.abc import Sequence

from tml.statuses import DOCUMENT_LIMIT

from .finding import Found, find_files, reason

STANDARD_INPUT = "-"


class StandardInput:
    """Standard input, once it was read, in a file without a name, which is there as long as this object is."""

    def __init__(self, name: str | None) -> None:
        import tempfile

        name = name or STANDARD_INPUT
        try:
            self.file = tempfile.TemporaryFile()
            # One byte more than tml takes, so that it still says that the document is too long.
            self.file.write(sys.stdin.buffer.read(DOCUMENT_LIMIT + 1))
            self.file.flush()
            self.found = Found(name, lies_at=f"/dev/fd/{self.file.fileno()}")
        except (OSError, ValueError) as error:
            self.found = Found(name, f"standard input cannot be read: {reason(error)}")


def find_with(given: StandardInput, paths: Sequence[str], patterns: Sequence[str]) -> list[Found]:
    """The files that the paths stand for, where `-` is standard input; no file is named twice."""
    found: dict[str, Found] = {}
    for path in paths:
        for one in [given.found] if path == STANDARD_INPUT else find_files([path], patterns):
            found.setdefault(one.path, one)
    return list(found.values())
