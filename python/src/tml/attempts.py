"""The work on one file of many. All of it goes through here, so that an error in it is reported for this file and ends nothing else."""

from __future__ import annotations

import os
import re
from collections.abc import Callable
from typing import TypeVar

from .running import Expected

Given = TypeVar("Given")
Result = TypeVar("Result")

NO_MEMORY = "no memory to take the document apart"
"""The cause to report if a document needs more memory than there is."""

DIGEST = re.compile("_[0-9a-f]{16}(?=/)")
"""What the name of a package has on a worker of a cluster besides its own name."""


def attempted(work: Callable[[Given], Result], given: Given, failed: Callable[[Given, str], Result]) -> Result:
    """What some work makes of a file; or, if that raises anything, what `failed` makes of the file and of the cause."""
    try:
        return work(given)
    except Exception as error:
        return failed(given, cause(error))


def cause(error: Exception) -> str:
    """Why something failed. Of an exception that no code expects, which is a bug, also its type and its place in the code."""
    if isinstance(error, MemoryError):
        return NO_MEMORY
    if isinstance(error, OSError) and (said := error.strerror or str(error)):
        return said.lower()
    return str(error) if isinstance(error, Expected) else f"{type(error).__name__}: {error} ({place_of(error)})"


def place_of(error: Exception) -> str:
    """The file and the line that raised an exception: the last ones of these packages, or of the question of a user."""
    import traceback

    frames = list(traceback.walk_tb(error.__traceback__))
    own = [(frame, line) for frame, line in frames[1:] if frame.f_globals.get("__name__", "").startswith("tml")]
    frame, line = (own or frames)[-1]
    return DIGEST.sub("", "/".join(frame.f_code.co_filename.split(os.sep)[-2:])) + f":{line}"
