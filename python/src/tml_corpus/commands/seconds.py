"""`tml-corpus seconds`."""

from __future__ import annotations

from typing import NamedTuple

from ..command_line.run import Run
from ..seconds.show import show_seconds


class Options(NamedTuple):
    """What is asked of `seconds`."""

    document: str
    format: str
    touching: bool


def command(run: Run, options: Options) -> int:
    """Prints a placing of a document in whole seconds, and answers the status."""
    return show_seconds(run.program, options.document, options.format, options.touching)
