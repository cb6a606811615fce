"""The first question about the faults of a file. Most documents are accepted, and then nothing else is loaded or looked at."""

from __future__ import annotations

from collections.abc import Iterator, Sequence
from functools import partial
from typing import TYPE_CHECKING

from ..asking.program import ACCEPTED, FAULT, Program, Reply
from ..asking.room import room_for
from ..files.finding import Found, read_document
from ..lint.kinds import Lint
from .judgement import Judgement, problem_of

if TYPE_CHECKING:
    from ..command_line.run import Run


def judge(program: Program, found: Found, explained: bool, more: int, lint: Lint | None = None) -> Judgement:
    """Asks `tml` about one file."""
    document = read_document(found.place())
    reply = program.check(document)
    if is_enough(reply, lint):
        return Judgement(found.path, problem=problem_of(reply))
    from .judging import judge_document

    with room_for(document):
        return judge_document(program, found.path, document, explained, more, lint, reply)


def not_judged(found: Found, problem: str) -> Judgement:
    """The judgement of a file with which something went wrong."""
    return Judgement(found.path, problem=problem)


def is_enough(reply: Reply, lint: Lint | None) -> bool:
    """Whether a reply says all that is reported of its document."""
    return lint is None if reply.status == ACCEPTED else reply.status != FAULT


def judgement_to_send(program: Program, found: Found, explained: bool, more: int, lint: Lint | None) -> Judgement | None:
    """The judgement of a file, as a process sends it: nothing where it is accepted and there is nothing to say of it."""
    judgement = judge(program, found, explained, more, lint)
    return None if judgement.is_plain() else judgement


def judgements(run: Run, found: Sequence[Found], explained: bool, more: int, lint: Lint | None) -> Iterator[Judgement | None]:
    """The judgements of some files in their order; of one that is accepted, and of which there is nothing to say, None."""
    return run.each(partial(judgement_to_send, run.program, explained=explained, more=more, lint=lint), found, not_judged)
