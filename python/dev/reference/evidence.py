"""Evidence and its text: the section *The text of evidence* of docs/DEFINITIONS.md."""

from __future__ import annotations

import re
from collections.abc import Sequence
from dataclasses import dataclass

from .nets import Calendar, Ranks, Span, Step, Via
from .relations import ORDERS

BOUND = 2**32
"""All numbers are below it."""

NUMBER = rb"(0|[1-9][0-9]{0,9})"
RANKS = rb"at " + NUMBER + rb" " + NUMBER
RELATION = rb"(" + rb"|".join(ORDERS) + rb")"


@dataclass(frozen=True)
class Timeline:
    """A timeline, by its ranks."""

    ranks: Ranks


@dataclass(frozen=True)
class Entailment:
    """A relation between two intervals, and for each of its orders a list of steps."""

    left: int
    relation: bytes
    right: int
    walks: tuple[tuple[Step, ...], ...]


@dataclass(frozen=True)
class Counterexample:
    """A relation between two intervals, and the ranks of a timeline in which it is to be false."""

    left: int
    relation: bytes
    right: int
    ranks: Ranks


@dataclass(frozen=True)
class Clash:
    """Cites, a list of steps, and for each cite the ranks of a spare."""

    cites: tuple[int, ...]
    walk: tuple[Step, ...]
    spares: tuple[Ranks, ...]


Evidence = Timeline | Entailment | Counterexample | Clash
Claims = tuple[Evidence, ...]
"""*Several claims*: one at least."""


class BadLineError(Exception):
    """A line with which the lines before it are not begun any more; it is the one that was taken last."""


def timeline_lines(ranks: Ranks) -> list[bytes]:
    """The lines of a timeline."""
    return [b"timeline %d" % (len(ranks) // 2)] + [b"at %d %d" % ranks[one : one + 2] for one in range(0, len(ranks), 2)]


def step_line(step: Step) -> bytes:
    """The line of a step."""
    if isinstance(step, Via):
        return b"via %d %d" % (step.link, step.order)
    if isinstance(step, Span):
        return b"span %d" % step.interval
    return b"calendar %d %d" % (step.first, step.second)


def walk_lines(steps: Sequence[Step]) -> list[bytes]:
    """The lines of a list of steps."""
    return [b"walk %d" % len(steps)] + [step_line(step) for step in steps]


def body_of(evidence: Evidence) -> list[bytes]:
    """The *body* of evidence: the lines between the first one of version 1 and the last one."""
    if isinstance(evidence, Timeline):
        return timeline_lines(evidence.ranks)
    if isinstance(evidence, Clash):
        cites = [b"clash %d" % len(evidence.cites)] + [b"cite %d" % cite for cite in evidence.cites]
        return cites + walk_lines(evidence.walk) + [line for ranks in evidence.spares for line in timeline_lines(ranks)]
    relation = b"%d %s %d" % (evidence.left, evidence.relation, evidence.right)
    if isinstance(evidence, Entailment):
        return [b"entails " + relation] + [line for walk in evidence.walks for line in walk_lines(walk)]
    return [b"counter " + relation, *timeline_lines(evidence.ranks)]


def text_of(evidence: Evidence) -> bytes:
    """The text of evidence, of version 1."""
    return b"".join(line + b"\n" for line in [b"tml-evidence 1", *body_of(evidence), b"end"])


def text_of_claims(claims: Claims) -> bytes:
    """The text of several claims, of version 2."""
    bodies = [line for evidence in claims for line in body_of(evidence)]
    return b"".join(line + b"\n" for line in [b"tml-evidence 2", b"claims %d" % len(claims), *bodies, b"end"])


class Reading:
    """The lines of a text as they are taken one after another, each of a form that keeps the lines so far begun."""

    def __init__(self, text: bytes) -> None:
        """Begins before the first line."""
        self.text = text
        self.place = 0
        self.taken = 0

    def line(self) -> bytes | None:
        """Takes a line, without its line feed; none where it has none, or where there is no further line."""
        self.taken += 1
        end = self.text.find(b"\n", self.place)
        if end < 0:
            return None
        begin, self.place = self.place, end + 1
        return self.text[begin:end]

    def take(self, *forms: bytes) -> tuple[int, tuple[bytes, ...]]:
        """Takes a line: which of the forms it has, and the words that the form asks for; its numbers are below the bound."""
        line = self.line()
        for number, form in enumerate(forms):
            found = re.fullmatch(form, line) if line is not None else None
            if found and all(int(word) < BOUND for word in found.groups() if word.isdigit()):
                return number, found.groups()
        raise BadLineError

    def end(self) -> None:
        """Takes the last line; a further one is bad."""
        self.take(b"end")
        if self.place < len(self.text):
            self.taken += 1
            raise BadLineError

    def numbers(self, form: bytes) -> tuple[int, ...]:
        """Takes a line of a form that asks for numbers."""
        return tuple(int(word) for word in self.take(form)[1])

    def ranks(self, intervals: int) -> Ranks:
        """Takes the lines of a timeline after its first one."""
        ranks: list[int] = []
        for _ in range(intervals):
            ranks += self.numbers(RANKS)
        return tuple(ranks)

    def timeline(self) -> Ranks:
        """Takes the lines of a timeline."""
        [intervals] = self.numbers(b"timeline " + NUMBER)
        return self.ranks(intervals)

    def step(self) -> Step:
        """Takes a step."""
        form, words = self.take(b"via " + NUMBER + b" " + NUMBER, b"span " + NUMBER, b"calendar " + NUMBER + b" " + NUMBER)
        numbers = [int(word) for word in words]
        if form == 0:
            return Via(numbers[0], numbers[1])
        return Span(numbers[0]) if form == 1 else Calendar(numbers[0], numbers[1])

    def walk(self) -> tuple[Step, ...]:
        """Takes the lines of a list of steps."""
        [steps] = self.numbers(b"walk " + NUMBER)
        return tuple(self.step() for _ in range(steps))

    def cites(self, count: int) -> tuple[int, ...]:
        """Takes cites: they rise, and each leaves numbers below the bound for those to come."""
        cites: list[int] = []
        for coming in reversed(range(count)):
            [cite] = self.numbers(b"cite " + NUMBER)
            if (cites and cite <= cites[-1]) or cite > BOUND - 1 - coming:
                raise BadLineError
            cites.append(cite)
        return tuple(cites)

    def body(self) -> Evidence:
        """Takes the lines of evidence of one of the four kinds."""
        relation = NUMBER + b" " + RELATION + b" " + NUMBER
        form, words = self.take(b"timeline " + NUMBER, b"entails " + relation, b"counter " + relation, b"clash " + NUMBER)
        if form == 0:
            return Timeline(self.ranks(int(words[0])))
        if form == 1:
            walks = tuple(self.walk() for _ in ORDERS[words[1]])
            return Entailment(int(words[0]), words[1], int(words[2]), walks)
        if form == 2:
            return Counterexample(int(words[0]), words[1], int(words[2]), self.timeline())
        cites = self.cites(int(words[0]))
        return Clash(cites, self.walk(), tuple(self.timeline() for _ in cites))

    def claims(self) -> Claims:
        """Takes a whole text, of the version that its first line says."""
        version, _ = self.take(b"tml-evidence 1", b"tml-evidence 2")
        count = self.numbers(b"claims " + NUMBER)[0] if version == 1 else 1
        if count == 0:
            raise BadLineError
        claims = tuple(self.body() for _ in range(count))
        self.end()
        return claims


def read_claims(text: bytes) -> Claims | int:
    """The claims whose text it is, of either version; or else its *bad line*, counted from 1."""
    reading = Reading(text)
    try:
        return reading.claims()
    except BadLineError:
        return reading.taken
