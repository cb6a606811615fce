"""`tml-corpus seconds`: a placing of one document in whole seconds, or what cannot all be met."""

from __future__ import annotations

import sys
from typing import TextIO

from ..asking.program import Program
from ..clash.fitting import Unfit, status_of
from ..command_line.statuses import Status
from ..files.finding import counted, read_document, shown
from .civil import in_calendar
from .formats import FORMS, change_lines, unplaced_json, unplaced_lines
from .placed import Placed, Unplaced, document_placed


def show_seconds(program: Program, path: str, form: str, touching: bool) -> int:
    """Prints it, and answers the status. Where the output is for programs, what is not part of it goes to standard error."""
    apart = sys.stdout if form == "text" else sys.stderr
    return status_of(lambda path: print_seconds(program, path, form, touching, apart), path, apart)


def print_seconds(program: Program, path: str, form: str, touching: bool, apart: TextIO) -> Unfit | int:
    """The same, if there is a placing or something that cannot be met."""
    found = document_placed(program, path, read_document(path), touching)
    if isinstance(found, Unfit):
        return found
    apart.write(change_lines(path, found))
    if isinstance(found, Unplaced):
        if form == "json":
            sys.stdout.write(unplaced_json(path, found))
        else:
            apart.write(unplaced_lines(path, found))
        return Status.FINDING
    if form == "ics":
        sys.stderr.write(left_out(path, found))
    sys.stdout.flush()
    sys.stdout.buffer.write(FORMS[form](path, found).encode("utf-8", "replace"))
    return Status.SUCCESS


def left_out(path: str, found: Placed) -> str:
    """What is said of intervals that no calendar has."""
    count = sum(not (in_calendar(one.start) and in_calendar(one.end)) for one in found.intervals)
    return f"{shown(path)}: {counted(count, 'interval')} outside of the years 1 to 9999 left out\n" if count else ""
