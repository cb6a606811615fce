"""A referee by z3, where the module `z3` is there: relations and clashes as inequalities of real numbers.

The start and the end of an interval are real numbers; the dates say what they are, or between which seconds they lie. A net fits
exactly where these inequalities can be true together, so nothing of ranks, of orders of the calendar or of walks is asked.
"""

from __future__ import annotations

import importlib
import importlib.util
import re
from collections import Counter
from collections.abc import Iterable, Sequence
from dataclasses import dataclass
from typing import Any

from differential.cases import Case
from differential.datetimes import bounds
from differential.nets import INVERSE
from differential.trees import DECODED, Node, tree_of
from reference import Outcome
from tml.statuses import BASE_RELATIONS, RELATIONS, TmlStatus

IS_THERE = importlib.util.find_spec("z3") is not None
MOST_INTERVALS, MOST_LINKS = 12, 60
COMMANDS = (b"solve", b"ask", b"relations", b"possible", b"matrix", b"reduce")
INVERSE_OF = {inverse: relation for relation, inverse in INVERSE.items() if inverse != relation}
ENDS = ("eventInstanceID", "timeID"), ("relatedToEventInstance", "relatedToTime")


@dataclass(frozen=True)
class Link:
    """A link between two intervals, by their names."""

    left: str
    relation: str
    right: str


class Reals:
    """The intervals of a tree, each two real numbers, and its links."""

    def __init__(self, nodes: Sequence[Node]) -> None:
        self.z3: Any = importlib.import_module("z3")
        self.points: dict[str, tuple[Any, Any]] = {}
        self.given: list[Any] = []
        self.links: list[Link] = []
        self.said: dict[Link, Any] = {}
        """What links say, since z3 takes long to make it."""
        self.solver: Any = None
        for what, name, attributes in nodes:
            if what == "start":
                self.take(name, dict(attributes))

    def take(self, name: str, given: dict[str, str]) -> None:
        """Takes a tag: an interval, a link, or another one."""
        if name == "MAKEINSTANCE":
            self.interval(given["eiid"])
        elif name == "TIMEX3":
            start, end = self.interval(given["tid"])
            found = bounds(given["type"], given.get("mod", ""), given.get("value", ""))
            if found is not None:
                self.given += [start == found.low, end == found.high] if found.exact else [start >= found.low, end <= found.high]
        elif name == "TLINK":
            left, right = (next(given[key] for key in pair if given.get(key)) for pair in ENDS)
            self.links.append(Link(left, given["relType"], right))

    def interval(self, name: str) -> tuple[Any, Any]:
        """The two numbers of a new interval."""
        start, end = self.z3.Real(f"{name} start"), self.z3.Real(f"{name} end")
        self.points[name] = start, end
        self.given.append(start < end)
        return start, end

    def says(self, link: Link) -> Any:
        """What a link says of the numbers."""
        if link not in self.said:
            self.said[link] = self.made(link)
        return self.said[link]

    def made(self, link: Link) -> Any:
        """What a link says of the numbers, as the table of relations has it."""
        if link.relation in INVERSE_OF:
            return self.says(Link(link.right, INVERSE_OF[link.relation], link.left))
        (s, e), (t, f) = self.points[link.left], self.points[link.right]
        parts = {
            "BEFORE": [e < t], "IBEFORE": [e == t], "IS_INCLUDED": [t < s, e < f], "DURING": [t <= s, e <= f], "BEGINS": [s == t, e < f],
            "ENDS": [e == f, t < s], "SIMULTANEOUS": [s == t, e == f], "IDENTITY": [s == t, e == f], "OVERLAPS": [s < t, t < e, e < f],
        }  # fmt: skip
        return self.z3.And(*parts[link.relation])

    def can_be(self, links: Iterable[Link], *more: Any) -> bool:
        """Whether some numbers make the dates, these links and more true."""
        solver = self.z3.Solver()
        solver.add(*self.given, *map(self.says, links), *more)
        return bool(solver.check() == self.z3.sat)

    def can_be_with_all(self, more: Any) -> bool:
        """Whether some numbers make the dates, all links and more true. One solver answers, so it gets the links once."""
        if self.solver is None:
            self.solver = self.z3.Solver()
            self.solver.add(*self.given, *map(self.says, self.links))
        self.solver.push()
        self.solver.add(more)
        found = self.solver.check()
        self.solver.pop()
        return bool(found == self.z3.sat)

    def follows(self, link: Link) -> bool:
        """Whether a relation is true of all numbers that fit."""
        return not self.can_be_with_all(self.z3.Not(self.says(link)))

    def reduced(self) -> list[int]:
        """The numbers of the links without each that is true of all numbers that fit with the others that are left."""
        kept = list(range(len(self.links)))
        for number, link in enumerate(self.links):
            others = [other for other in kept if other != number]
            if not self.can_be([self.links[other] for other in others], self.z3.Not(self.says(link))):
                kept = others
        return kept

    def possible(self, first: str, second: str) -> list[str]:
        """The base relations that are true of some numbers that fit."""
        return [relation for relation in BASE_RELATIONS if self.can_be_with_all(self.says(Link(first, relation, second)))]


def is_too_large(nodes: Iterable[Node]) -> bool:
    """Whether z3 would take very long for a document."""
    names = Counter(name for what, name, _ in nodes if what == "start")
    return names["MAKEINSTANCE"] + names["TIMEX3"] > MOST_INTERVALS or names["TLINK"] > MOST_LINKS


def complaint(case: Case, outcome: Outcome) -> str | None:
    """What is wrong with a timeline, a clash, an answer to `ask` or lines of relations, by real numbers; nothing where z3 is missing."""
    if not IS_THERE or outcome.status not in (TmlStatus.DONE, TmlStatus.CLASH) or not case.words or case.words[0] not in COMMANDS:
        return None
    document = case.files[case.words[1]]
    nodes = None if DECODED.search(document) else tree_of(document)
    if nodes is None or is_too_large(nodes):
        return None
    reals = Reals(nodes)
    if outcome.status == TmlStatus.CLASH:
        return of_clash(reals, outcome.text)
    if not reals.can_be(reals.links):
        return "By real numbers nothing fits, and the answer is not a clash."
    if case.words[0] == b"relations":
        return of_relations(reals, outcome.text)
    if case.words[0] == b"matrix":
        return of_matrix(reals, outcome.text)
    if case.words[0] == b"reduce":
        kept, numbers = reals.reduced(), [int(number) for number in re.findall(rb"^tlink (\d+) ", outcome.text, re.MULTILINE)]
        return None if kept == numbers else f"By real numbers the links {kept} are left, and not {numbers}."
    if case.words[0] == b"possible":
        first, second = (word.decode() for word in case.words[2:])
        wanted, found = reals.possible(first, second), re.findall(r"^relation (\w+)$", outcome.text.decode(), re.MULTILINE)
        return None if wanted == found else f"By real numbers {wanted} are possible, and not {found}."
    if case.words[0] == b"ask":
        x, relation, y = (word.decode() for word in case.words[2:])
        follows = reals.follows(Link(x, relation, y))
        proved = b"\nentails " in outcome.text
        return None if follows == proved else f"By real numbers it is {follows} that {x} {relation} {y} follows."
    return None


def of_clash(reals: Reals, text: bytes) -> str | None:
    """What is wrong with a clash: its links can be true together, or some of them that are fewer cannot."""
    cites = [int(line[5:]) for line in text.split(b"\n") if line.startswith(b"cite ")]
    cited = [reals.links[cite] for cite in cites]
    if reals.can_be(cited):
        return f"By real numbers the links {cites} can be true together."
    fewer = next((cite for place, cite in enumerate(cites) if not reals.can_be(cited[:place] + cited[place + 1 :])), None)
    return None if fewer is None else f"By real numbers the links {cites} clash without link {fewer}."


def of_relations(reals: Reals, text: bytes) -> str | None:
    """What is wrong with the lines of all relations that follow."""
    names = list(reals.points)
    rows = [Link(a, relation, b) for place, a in enumerate(names) for b in names[place + 1 :] for relation in RELATIONS]
    wanted = "".join(f"{row.left} {row.relation} {row.right}\n" for row in rows if reals.follows(row))
    return None if wanted.encode() == text else f"By real numbers these relations follow: {wanted!r}, and not {text!r}."


def of_matrix(reals: Reals, text: bytes) -> str | None:
    """What is wrong with the lines of all base relations that are possible."""
    names = list(reals.points)
    pairs = [(a, b) for place, a in enumerate(names) for b in names[place + 1 :]]
    wanted = "".join(f"{' '.join([a, b, *reals.possible(a, b)])}\n" for a, b in pairs)
    return None if wanted.encode() == text else f"By real numbers these relations are possible: {wanted!r}, and not {text!r}."
