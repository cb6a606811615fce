"""One document of which more is asked than whether it is accepted: that some timeline fits it, or why there is nothing to show."""

from __future__ import annotations

from collections.abc import Callable
from dataclasses import dataclass, replace
from typing import TextIO

from tml.attempts import attempted

from ..asking.program import ACCEPTED, CLASH, FAULT, CannotRun, Program, Reply
from ..check.formats import make_format
from ..check.judging import judge_document
from ..check.placed import PlacedFault
from ..command_line.statuses import Status
from ..files.finding import Found, shown
from . import formats
from .report import PlacedClash, Wanted
from .search import report_of
from .touching import touching_copy


@dataclass(frozen=True)
class Fitting:
    """A document that some timeline fits, what `tml solve` printed of it, and what there is to say of links that are read as touching."""

    document: bytes
    reply: Reply
    text: str = ""


@dataclass(frozen=True)
class Unfit:
    """What is said of a document that has a fault or a clash, and the status of that."""

    text: str
    status: int
    shown: PlacedClash | PlacedFault | None = None
    """What a picture of it shows: its first clash or its fault, if it has one."""

    document: bytes = b""
    """The document that has it."""


def fitting(program: Program, path: str, document: bytes, undone: str, touching: bool) -> Fitting | Unfit:
    """The document, where some timeline fits it; else its fault or the links that clash, and last that it is not drawn, or what else.

    Links between dates that touch may be read as the relation that holds: then the document is a copy.
    """
    reply = program.ask(["solve", "-"], document)
    if reply.status == FAULT:
        return fault_of(program, path, document)
    if reply.status == CLASH:
        return links_of(program, path, document, undone, touching, reply)
    if reply.status != ACCEPTED:
        raise CannotRun(reply.problem())
    return Fitting(document, reply)


def fault_of(program: Program, path: str, document: bytes) -> Unfit:
    """The fault of a document, as `tml-corpus check` prints it."""
    judgement = judge_document(program, path, document, True, 0)
    if judgement.accepted():
        raise CannotRun("the answers of tml to `solve` and `check` do not belong together")
    text = make_format("text", True).file(judgement)
    return Unfit(text, Status.TROUBLE) if judgement.problem else Unfit(text, Status.FINDING, judgement.faults[0], document)


def links_of(program: Program, path: str, document: bytes, undone: str, touching: bool, reply: Reply) -> Fitting | Unfit:
    """The links that clash, as `tml-corpus clashes` prints them; the copy where they clash only since dates touch, and may be read so."""
    report = report_of(program, Found(path), document, Wanted(touching=touching), reply)
    text = formats.Text(True).file(report)
    if report.clashes:
        said = f"{text}{shown(path)}: not {undone}: no timeline fits, since these links clash\n"
        return Unfit(said, Status.FINDING, report.clashes[0], document)
    again = fitting(program, path, touching_copy(program, document), undone, False)
    return replace(again, text=text + again.text)


def not_judged(path: str, problem: str) -> Unfit:
    """What is said of a document with which something went wrong."""
    return Unfit(f"{shown(path)}: not judged: {shown(problem)}\n", Status.TROUBLE)


def status_of(show: Callable[[str], Unfit | int], path: str, apart: TextIO) -> int:
    """Shows something of one document, and answers the status. If there is nothing to show it prints what is said of that."""
    done = attempted(show, path, not_judged)
    if isinstance(done, Unfit):
        apart.write(done.text)
        return done.status
    return done
