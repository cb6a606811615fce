"""Compares answers of the program with each other: those to `possible`, `matrix`, `ask`, `relations` and others over one document.

Nothing of the reference is asked here. What is to be true of the answers:

- each timeline that `possible` prints is accepted by `verify`, and the base relation before it is the one that it has there;
- a base relation follows by `ask` exactly where `possible` has it alone;
- `matrix` has the base relations of `possible` between the two intervals, and `relations` has a base relation where `matrix` has it alone;
- `score` of a document with itself counts the links that `reduce` keeps, all of which hold.
"""

from __future__ import annotations

import re
from collections.abc import Mapping, Sequence
from dataclasses import dataclass
from random import Random

from differential.cases import Case
from differential.nets import holding
from differential.words import DOCUMENT, EVIDENCE, draw_possible
from reference import Outcome
from tml.statuses import BASE_RELATIONS, INVERSES, TmlStatus

SUBJECT = "agreeing"
PART = re.compile(rb"relation ([A-Z_]+)\n(timeline \d+\n(?:at \d+ \d+\n)*)")


@dataclass(frozen=True)
class Possible:
    """What `possible` printed: each base relation, and the lines of its timeline."""

    timelines: Mapping[str, bytes]

    @classmethod
    def read(cls, text: bytes) -> Possible | None:
        """Reads the text; none where it is not of this form."""
        parts = PART.findall(text)
        whole = b"possible %d\n" % len(parts) + b"".join(b"relation %s\n%s" % part for part in parts)
        return cls({relation.decode(): lines for relation, lines in parts}) if whole == text else None

    def evidence(self) -> bytes:
        """The timelines as evidence of several claims."""
        return b"tml-evidence 2\nclaims %d\n%send\n" % (len(self.timelines), b"".join(self.timelines.values()))

    def ranks(self, relation: str) -> list[tuple[int, int]]:
        """The starts and ends of the timeline of a base relation."""
        lines = self.timelines[relation].splitlines()[1:]
        return [(int(start), int(end)) for _, start, end in map(bytes.split, lines)]


def draw_agreeing(random: Random, document: bytes) -> Case:
    """A question to `possible` between two intervals of a document, with which further answers are to agree."""
    return Case(SUBJECT, draw_possible(random, document, right=True), {DOCUMENT: document})


def further(case: Case, outcome: Outcome) -> list[Case]:
    """The questions whose answers are to agree with an answer to `possible`; none where it is not a list of base relations."""
    found = Possible.read(outcome.text) if outcome.status == TmlStatus.DONE else None
    if found is None:
        return []
    _, document, first, second = case.words
    relation = next(iter(found.timelines), BASE_RELATIONS[0])
    words: list[tuple[bytes, ...]] = [(b"ask", document, first, one.encode(), second) for one in {relation: None, BASE_RELATIONS[-1]: None}]
    words += [(b"check", document), (b"matrix", document), (b"relations", document), (b"reduce", document), (b"score", document, document)]
    questions = [Case("agreed", one, case.files) for one in words]
    verified = Case("agreed", (b"verify", document, EVIDENCE), {**case.files, EVIDENCE: found.evidence()})
    return [verified, *questions]


def complaint(case: Case, outcome: Outcome, others: Sequence[tuple[Case, Outcome]]) -> str | None:
    """What is wrong with an answer to `possible` by those to the further questions."""
    found = Possible.read(outcome.text)
    if found is None or any(other.status != TmlStatus.DONE for _, other in others):
        return f"`possible` and further commands end with {[outcome.status, *(other.status for _, other in others)]}."
    texts = {one.words[0]: other.text for one, other in others}
    if texts[b"verify"] != b"verified timeline\n" * len(found.timelines):
        return f"Of the timelines of `possible` `verify` says {texts[b'verify']!r}."
    for one, other in others:
        if one.words[0] == b"ask" and (b"\nentails " in other.text) != (list(found.timelines) == [one.words[3].decode()]):
            return f"`possible` has {list(found.timelines)}, and to `ask` for {one.words[3]!r} the answer is {other.text!r}."
    names = re.findall(rb"^interval \d+ (\S+)$", texts[b"check"], re.MULTILINE)
    first, second = names.index(case.words[2]), names.index(case.words[3])
    for relation in found.timelines:
        ranks = found.ranks(relation)
        if len(ranks) != len(names) or relation not in holding(ranks[first], ranks[second]):
            return f"The timeline of {relation} does not have it."
    return of_matrix(found, (first, second), names, texts) or of_score(texts)


def of_score(texts: Mapping[bytes, bytes]) -> str | None:
    """What is wrong with the lines of `score` of a document with itself, by those of `reduce` and of `check`."""
    head, *kept = texts[b"reduce"].splitlines()
    links = [line for line in texts[b"check"].splitlines() if line.startswith(b"tlink ")]
    if head != b"reduced %d of %d" % (len(kept), len(links)) or kept != [line for line in links if line in kept]:
        return f"Of the links {links} `reduce` keeps {kept}, and says {head!r}."
    score = b"precision %d of %d\nrecall %d of %d\n" % ((len(kept),) * 4)
    return None if texts[b"score"] == score else f"`reduce` keeps {len(kept)} links, and `score` says {texts[b'score']!r}."


def of_matrix(found: Possible, pair: tuple[int, int], names: Sequence[bytes], texts: Mapping[bytes, bytes]) -> str | None:
    """What is wrong with the lines of `matrix`, by those of `possible` and of `relations`."""
    rows = [line.decode().split(" ") for line in texts[b"matrix"].splitlines()]
    pairs = [[one.decode(), other.decode()] for place, one in enumerate(names) for other in names[place + 1 :]]
    if [row[:2] for row in rows] != pairs:
        return "`matrix` does not have a line for each two intervals."
    decided = [(row[0], row[2], row[1]) for row in rows if row[3:] == []]
    related = [tuple(line.decode().split(" ")) for line in texts[b"relations"].splitlines()]
    if decided != [row for row in related if row[1] in BASE_RELATIONS]:
        return f"`matrix` decides {decided}, and `relations` has {related}."
    first, second = sorted(pair)
    if first == second:
        return None if list(found.timelines) == ["SIMULTANEOUS"] else f"An interval is {list(found.timelines)} to itself."
    row = rows[pairs.index([names[first].decode(), names[second].decode()])][2:]
    turned = row if pair == (first, second) else [INVERSES[one] for one in row]
    return None if set(turned) == set(found.timelines) else f"`matrix` has {row}, and `possible` {list(found.timelines)}."
