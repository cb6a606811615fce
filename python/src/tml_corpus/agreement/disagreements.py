"""The links of one annotation that do not follow in the other one, and what can be there: what two annotators talk about.

Which links count `tml reduce` says, which relations follow in the other document `tml relations`, and what it leaves open between the
two intervals `tml matrix`.
"""

from __future__ import annotations

from collections.abc import Iterable
from dataclasses import dataclass

from tml.places import Place
from tml.statuses import INVERSES

from ..asking.program import ACCEPTED, CannotRun, Program
from ..document.reduced import ask_reduced
from ..document.words import Link, Wording
from ..matrix.formats import in_words
from ..matrix.reading import matrix_of

APART = "the answers of tml to `score`, `reduce` and `relations` do not belong together"


@dataclass(frozen=True)
class Side:
    """A document of a pair: its path, its words, and those of the file, where links between dates that touch are read otherwise."""

    path: str
    wording: Wording
    written: Wording


@dataclass(frozen=True)
class Disagreement:
    """A link that does not follow in the other document: where its tag stands, its words, and what there is in the other one."""

    path: str
    place: Place
    other: str
    link: Link
    words: str
    missing: tuple[str, ...] = ()
    """The names of its intervals that the other document does not have."""
    possible: tuple[str, ...] = ()
    """The base relations that are possible there, where it has both."""

    def said(self) -> str:
        """What is to be said of it, in a line."""
        if self.missing:
            there = f"which has no interval {' and no '.join(self.missing)}"
        elif len(self.possible) == 1:
            there = f"where it is {self.possible[0]}"
        else:
            there = f"which leaves open {in_words(self.possible)}"
        return f"does not follow in {self.other}, {there}: {self.words}"


def links_that_do_not_follow(program: Program, side: Side, other: Side, wanted: int) -> list[Disagreement]:
    """The links of a document that are kept and do not follow in the other one; there are so many of them by `tml score`."""
    if not wanted:
        return []
    numbers = {name: number for number, name in enumerate(other.wording.intervals)}
    kept = ask_reduced(program, side.wording).kept
    missing = {link.number: tuple(dict.fromkeys(name for name in (link.left, link.right) if name not in numbers)) for link in kept}
    following = following_in(program, other.wording.document, [link for link in kept if not missing[link.number]])
    apart = [link for link in kept if link.number not in following]
    if len(apart) != wanted:
        raise CannotRun(APART)
    found = []
    matrix = None
    for link in apart:
        possible: tuple[str, ...] = ()
        if not missing[link.number]:
            if matrix is None:
                matrix = matrix_of(program, other.wording.document, other.wording.intervals)
            possible = matrix.between(numbers[link.left], numbers[link.right])
        place, words = side.written.link(link.number).place, side.wording.in_words(link)
        found.append(Disagreement(side.path, place, other.path, link, words, missing[link.number], possible))
    return found


def following_in(program: Program, document: bytes, links: Iterable[Link]) -> set[int]:
    """The numbers of those links that follow in another document: they stand in `tml relations`, as they are or the other way round."""
    lines: dict[bytes, list[int]] = {}
    for link in links:
        for words in ((link.left, link.relation, link.right), (link.right, INVERSES[link.relation], link.left)):
            lines.setdefault(" ".join(words).encode("utf-8", "surrogateescape"), []).append(link.number)
    reply = program.ask(["relations", "-"], document)
    if reply.status != ACCEPTED:
        raise CannotRun(APART)
    return {number for line in reply.text.splitlines() for number in lines.get(line, ())}
