"""The links of a document without those that follow from the others: what `tml reduce` says, and why nothing could be asked."""

from __future__ import annotations

from dataclasses import dataclass

from tml.explaining.faults import read_fault
from tml.places import Places

from ..asking.program import ACCEPTED, CLASH, FAULT, CannotRun, Program, Reply
from .words import Link, Wording

APART = "the answers of tml to `check` and `reduce` do not belong together"
CLASHING = "its links contradict each other: see tml-corpus clashes"


@dataclass(frozen=True)
class Reduced:
    """The links that are kept, and those that follow from them, each in the order of their numbers."""

    kept: list[Link]
    following: list[Link]


def read_reduced(reply: Reply, wording: Wording) -> Reduced:
    """What an answer of `tml reduce` with status 0 says of a document."""
    head, *lines = reply.lines()
    links = [wording.link(number) for number in range(len(wording.link_tags))]
    kept = {int(number): words for _, number, *words in lines}
    as_written = {link.number: [link.left, link.relation, link.right] for link in links}
    if int(head[3]) != len(links) or any(words != as_written[number] for number, words in kept.items()):
        raise CannotRun(APART)
    return Reduced([link for link in links if link.number in kept], [link for link in links if link.number not in kept])


def ask_reduced(program: Program, wording: Wording) -> Reduced:
    """What `tml reduce` says of a document that some timeline fits."""
    reply = program.ask(["reduce", "-"], wording.document)
    if reply.status != ACCEPTED:
        raise CannotRun("the answers of tml to `reduce` and `score` do not belong together")
    return read_reduced(reply, wording)


def problem_of(reply: Reply, document: bytes, text: bytes) -> str | None:
    """Why an answer says nothing of links, or None where it does; of a fault the text is its line."""
    if reply.status == ACCEPTED:
        return None
    fault = read_fault(text) if reply.status == FAULT else None
    if fault is not None:
        place = Places(document).place(fault.offset)
        return f"fault {fault.title()} at {place.line}:{place.column}"
    return CLASHING if reply.status == CLASH else reply.problem()
