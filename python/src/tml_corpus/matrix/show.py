"""`tml-corpus matrix`: what all intervals of one document can be to each other, printed as it is made."""

from __future__ import annotations

import sys
from dataclasses import dataclass
from typing import TextIO

from tml.matrices import Matrix

from ..asking.pool import Interruption
from ..asking.program import Program
from ..clash.fitting import Unfit, fitting, status_of
from ..command_line.statuses import Status
from ..document.words import Wording
from ..files.finding import read_document
from .formats import FORMS
from .reading import matrix_of


@dataclass(frozen=True)
class Worded:
    """The matrix of a document and its words, and what there is to say of links that are read as touching."""

    text: str
    wording: Wording
    matrix: Matrix


def worded_matrix(program: Program, path: str, undone: str, touching: bool) -> Worded | Unfit:
    """The matrix of a file, or why there is none."""
    found = fitting(program, path, read_document(path), undone, touching)
    if isinstance(found, Unfit):
        return found
    wording = Wording(program, found.document)
    return Worded(found.text, wording, matrix_of(program, found.document, wording.intervals))


def show_matrix(program: Program, path: str, form: str, touching: bool, stop: Interruption) -> int:
    """Prints it, and answers the status. What is not part of a table goes to standard error."""
    apart = sys.stdout if form == "text" else sys.stderr
    return status_of(lambda path: print_matrix(program, path, form, touching, apart, stop), path, apart)


def print_matrix(program: Program, path: str, form: str, touching: bool, apart: TextIO, stop: Interruption) -> Unfit | int:
    """The same, if some timeline fits the document."""
    found = worded_matrix(program, path, "shown", touching)
    if isinstance(found, Unfit):
        return found
    apart.write(found.text)
    sys.stdout.flush()
    for part in FORMS[form](path, found.wording, found.matrix):
        if stop.happened.is_set():
            return Status.INTERRUPTED
        if form == "text":
            sys.stdout.write(part)
        else:
            sys.stdout.buffer.write(part.encode("utf-8", "replace"))
    return Status.SUCCESS
