"""`tml-corpus matrix`."""

from __future__ import annotations

from typing import NamedTuple

from ..command_line.run import Run
from ..matrix.show import show_matrix


class Options(NamedTuple):
    """What is asked of `matrix`."""

    document: str
    format: str
    touching: bool


def command(run: Run, options: Options) -> int:
    """Prints what the intervals of a document can be to each other, and answers the status."""
    return show_matrix(run.program, options.document, options.format, options.touching, run.stop)
