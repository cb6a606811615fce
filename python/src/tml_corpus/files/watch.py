"""Looking at files again as they change: their times, sizes and numbers are asked for once a second."""

from __future__ import annotations

import os
import sys
from collections.abc import Callable

from ..asking.pool import Interruption
from .finding import Found

SECONDS = 1.0
"""So long is waited between two looks."""

Signature = tuple[object, ...]


def watch(search: Callable[[], list[Found]], look: Callable[[list[Found]], object], stop: Interruption) -> None:
    """Looks at all files, and then at those that are new or have changed, until the program is interrupted."""
    before: dict[str, Signature] = {}
    while True:
        found = search()
        # What changes while it is looked at is looked at again.
        now = {one.path: signature(one) for one in found}
        changed = [one for one in found if before.get(one.path) != now[one.path]]
        if changed:
            look(changed)
            sys.stdout.flush()
        before = now
        if stop.happened.wait(SECONDS):
            return


def signature(found: Found) -> Signature:
    """What changes when a file does."""
    if found.problem is not None:
        return (found.problem,)
    try:
        status = os.stat(found.place())
    except (OSError, ValueError):
        return ()
    return status.st_mtime_ns, status.st_ctime_ns, status.st_size, status.st_ino
