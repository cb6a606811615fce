"""Links that contradict each other: found by `tml solve`, judged by `tml verify` before they are reported, and kept as evidence."""

from __future__ import annotations

import os
import re
from collections.abc import Sequence
from typing import NamedTuple

from tml.lines import Step
from tml.replies import kind_of
from tml.skeletons import renumbered

from ..asking.program import ACCEPTED, CannotRun, Program, Reply
from ..files.replacing import replace_file


class Clash(NamedTuple):
    """A minimal clash as `tml solve` printed it: the numbers of its links, the steps of its walk, and the whole text."""

    links: tuple[int, ...]
    walk: tuple[Step, ...]
    evidence: bytes

    def renumbered(self, numbers: Sequence[int]) -> Clash:
        """The clash of a document that has more links: link K of this one is its link `numbers[K]`."""
        walk = tuple(Step(step.kind, numbers[step.first], step.second) if step.kind == "via" else step for step in self.walk)
        return Clash(tuple(numbers[link] for link in self.links), walk, renumbered(self.evidence, numbers))


def read_clash(reply: Reply) -> Clash:
    """The clash that an answer of `tml solve` with status 2 has."""
    links = tuple(int(number) for number in re.findall(rb"^cite (\d+)$", reply.text, re.MULTILINE))
    steps = re.findall(rb"^(via|span|calendar) (\d+)(?: (\d+))?$", reply.text, re.MULTILINE)
    if kind_of(reply.text) != b"clash" or not links or not steps:
        raise CannotRun("the answer of tml to `solve` cannot be read")
    return Clash(links, tuple(Step(kind.decode(), int(first), int(second or 0)) for kind, first, second in steps), reply.text)


def is_timeline(reply: Reply) -> bool:
    """Whether an answer of `tml solve` says that a timeline fits."""
    return reply.status == ACCEPTED and kind_of(reply.text) == b"timeline"


def verify_clash(program: Program, document: bytes, clash: Clash, kept: str | None = None) -> None:
    """Has `tml verify` judge a clash. Its evidence is kept if a name of a file is given for it."""
    verify(program, document, clash.evidence, b"clash %s" % b" ".join(b"%d" % link for link in clash.links), "refused the evidence")
    if kept is not None:
        replace_file(kept, clash.evidence, top=os.path.dirname(kept))


def verify_timeline(program: Program, document: bytes, timeline: Reply) -> None:
    """Has `tml verify` judge a timeline that `tml solve` printed."""
    verify(program, document, timeline.text, b"timeline", "did not accept the timeline")


def verify(program: Program, document: bytes, evidence: bytes, shown: bytes, otherwise: str) -> None:
    """Has `tml verify` judge evidence, which is to show this; otherwise it did what is said."""
    judged = program.ask(["verify", "-"], document, evidence)
    if judged.status != ACCEPTED or judged.text != b"verified %s\n" % shown:
        said = judged.text.decode("utf-8", "replace").strip()
        raise CannotRun(f"tml verify {otherwise} of tml solve: {said}")


def evidence_name(path: str) -> str:
    """A name for the evidence of a file."""
    return own_name(path, "evidence")


def own_name(path: str, end: str) -> str:
    """A name for what is made of a file: its own name as far as it is plain, and a digest of the path.

    It has 128 bits, so that no two paths can be found that have the same.
    """
    import hashlib

    plain = re.sub(r"[^A-Za-z0-9._-]", "_", os.path.basename(path))[:100]
    digest = hashlib.sha256(os.fsencode(path)).hexdigest()[:32]
    return f"{plain}.{digest}.{end}"
