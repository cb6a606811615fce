"""Placings in whole seconds: found by `tml seconds`, and confirmed by `tml confirm` before they are looked at."""

from __future__ import annotations

from dataclasses import dataclass

from tml.lines import Step

from ..asking.program import ACCEPTED, CLASH, CannotRun, Program, Reply


@dataclass(frozen=True)
class Placing:
    """A second for each point: the start of each interval, and then its end."""

    seconds: tuple[int, ...]


@dataclass(frozen=True)
class Cycle:
    """Constraints that cannot all be met."""

    steps: tuple[Step, ...]


def place(program: Program, document: bytes) -> Placing | Cycle | Reply:
    """A placing, or a cycle where there is none; or the reply where the document is not accepted."""
    reply = program.ask(["seconds", "-"], document)
    if reply.status not in (ACCEPTED, CLASH):
        return reply
    confirmed = program.ask(["confirm", "-"], document, reply.text)
    kind = "placing" if reply.status == ACCEPTED else "cycle"
    if confirmed.status != ACCEPTED or confirmed.text != f"confirmed {kind}\n".encode():
        said = confirmed.text.decode("utf-8", "replace").strip()
        raise CannotRun(f"tml confirm did not accept the {kind} of tml seconds: {said}")
    lines = [line.split() for line in reply.text.splitlines()[2:-1]]
    if kind == "placing":
        return Placing(tuple(int(number) for _, *pair in lines for number in pair))
    return Cycle(tuple(Step(kind.decode(), *map(int, numbers)) for kind, *numbers in lines))
