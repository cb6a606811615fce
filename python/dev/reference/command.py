"""The command line of `tools/reference`: what `tml` is to answer to some words, by the reference alone."""

from __future__ import annotations

import os
import sys
from collections.abc import Sequence
from pathlib import Path

from .answers import Free, files_of
from .judge import expected

STANDARD_INPUT = b"-"


def main(words: Sequence[str]) -> int:
    """Prints the text that is right, or where the text is free how a right one begins, and answers the status."""
    asked = [os.fsencode(word) for word in words]
    files = {name: content for name in files_of(asked) or [] if (content := read(name)) is not None}
    wanted = expected(asked, files)
    if isinstance(wanted, Free):
        print(f"reference: of several texts each is right; status {int(wanted.status)}", file=sys.stderr)
        sys.stdout.buffer.write(wanted.form.head)
    else:
        sys.stdout.buffer.write(wanted.text)
    return int(wanted.status)


def read(name: bytes) -> bytes | None:
    """A file, or None where it cannot be read."""
    try:
        return sys.stdin.buffer.read() if name == STANDARD_INPUT else Path(os.fsdecode(name)).read_bytes()
    except OSError:
        return None
