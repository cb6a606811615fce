"""The questions: a function for each command of `tml`. Of a document with a fault the answer is a `Fault`, of a long file a `TooLong`."""

from __future__ import annotations

import io
import os
from collections.abc import Callable, Iterable
from dataclasses import replace
from itertools import chain
from numbers import Integral
from typing import TypeVar

from .asking import Answer, Answerer, File, answer_to
from .documents import Document, document_from
from .helping import complete
from .matrices import Matrix, read_matrix
from .misuse import expect_words
from .reading import (
    read_accepted,
    read_claims,
    read_clash,
    read_dates,
    read_drill,
    read_possible,
    read_proof,
    read_reduced,
    read_relations,
    read_score,
    read_seconds,
    read_timeline,
    read_units,
)
from .results import (
    Accepted,
    Clash,
    Confirmed,
    Counterexample,
    Cycle,
    Date,
    Drill,
    Fault,
    KeyClash,
    Malformed,
    Placing,
    Possible,
    Proof,
    Reduced,
    Refused,
    Relation,
    Row,
    Score,
    Timeline,
    TooLong,
    Unit,
    Verified,
)
from .skeletons import Skeleton, renumbered
from .statuses import BASE_RELATIONS, INTERVAL_LIMIT, INVERSES, TmlStatus

__all__ = [
    "ask", "canon", "check", "clash", "clashes", "confirm", "dates", "drill", "join", "matrix", "possible", "read", "reduce", "relations",
    "renew", "score", "seconds", "solve", "spans", "timeline", "verify",
]  # fmt: skip

Found = TypeVar("Found")
Problem = TypeVar("Problem")


def accepted_of(answer: Answer) -> Accepted:
    """What the document of a question has, which was accepted: its intervals and links have names and numbers there."""
    if answer.model is not None:
        return answer.model.counted()
    return read_accepted(answer_to(answer.by, "check", answer.files[0]).text, answer.files[0])


def clash_of(answer: Answer) -> Clash | Fault | TooLong | None:
    """The clash that is the answer where no timeline fits, or why nothing can be said of one."""
    return read_clash(answer.text, accepted_of(answer), answer.files[0]) if answer.status == TmlStatus.CLASH else answer.problem()


def told(answer: Answer, problem: Callable[[Answer], Problem | None], read: Callable[[Answer], Found]) -> Problem | Found:
    """What an answer says: its problem, or what is read of it if there is none."""
    found = problem(answer)
    return read(answer) if found is None else found


def read(document: File, by: Answerer | None = None) -> Document | Fault | TooLong:
    """The model of a document: its events, instances, times, signals and links, with their attributes, texts and places.

    Each question takes the model in the place of bytes or a path.
    """
    if isinstance(document, Document):
        return document
    answer = answer_to(by, "check", document)
    problem = answer.problem()
    if problem is not None:
        return problem
    path = os.fspath(document) if isinstance(document, (str, os.PathLike)) else None
    return document_from(answer.files[0], path, read_accepted(answer.text, b""))


def spans(document: File, by: Answerer | None = None) -> list[Unit] | Fault | TooLong:
    """The units of a document in their order: texts, tags with their attributes, comments and others. Only its source is looked at.

    Each has its first byte, counted from 0, and the one after its last.
    """
    return told(answer_to(by, "spans", document), Answer.problem, lambda answer: read_units(answer.text))


def check(document: File, by: Answerer | None = None) -> Accepted | Fault | TooLong:
    """What a document has that keeps the rules, or its first fault."""
    return told(answer_to(by, "check", document), Answer.problem, lambda answer: read_accepted(answer.text, answer.files[0]))


def dates(document: File, by: Answerer | None = None) -> dict[str, Date] | Fault | TooLong:
    """What the calendar says of each time of a document, by its name: the seconds of its start and its end, from 1970-01-01T00:00:00 on."""
    return told(answer_to(by, "dates", document), Answer.problem, lambda answer: read_dates(answer.text))


def solve(document: File, by: Answerer | None = None) -> Timeline | Clash | Fault | TooLong:
    """The least timeline that fits a document, with a rank for each start and end; or a minimal clash where none does."""
    answer = answer_to(by, "solve", document)
    found = clash_of(answer)
    return read_timeline(answer.text, accepted_of(answer).intervals, answer.files[0], by) if found is None else found


def clash(document: File, by: Answerer | None = None) -> Clash | Fault | TooLong | None:
    """A minimal clash of a document, or nothing where some timeline fits."""
    return clash_of(answer_to(by, "solve", document))


def clashes(document: File, most: int | None = None, by: Answerer | None = None) -> list[Clash] | Fault | TooLong:
    """Clashes of a document that have no link in common, each a minimal one: as many as are found one after the other, each of them without
    the links of those before it; or so many at most. Where some timeline fits there are none.

    Left out, the links of all of them together leave no clash. There may be other clashes, which have a link in common with one of these.
    """
    if most is not None and (isinstance(most, bool) or not isinstance(most, Integral) or most < 1):
        raise ValueError(f"most is how many clashes are wanted, 1 or more, and not {most!r}")
    answer = answer_to(by, "solve", document)
    problem = answer.problem()
    if problem is not None:
        return problem
    found, left_out = list[Clash](), set[int]()
    if answer.status != TmlStatus.CLASH:
        return found
    accepted, skeleton = accepted_of(answer), Skeleton(answer.files[0])
    first: Clash | None = read_clash(answer.text, accepted, skeleton.content)
    while first is not None:
        found.append(first)
        left_out.update(link.number for link in first.links)
        if most is not None and len(found) >= most:
            break
        kept = [number for number in range(len(accepted.links)) if number not in left_out]
        answer = answer_to(answer.by, "solve", skeleton.with_own_links(kept))
        text = renumbered(answer.text, kept)
        first = read_clash(text, accepted, skeleton.content) if answer.status == TmlStatus.CLASH else None
    return found


def timeline(document: File, by: Answerer | None = None) -> Timeline | Clash | Fault | TooLong:
    """The same as `solve`, with a row for each interval: its words, its ranks, and of a time what the calendar says."""
    answer = answer_to(by, "solve", document)
    problem = clash_of(answer)
    if problem is not None:
        return problem
    [content] = answer.files
    model, said = read(document if isinstance(document, Document) else content, answer.by), dates(content, answer.by)
    assert isinstance(model, Document)
    assert isinstance(said, dict)
    found = read_timeline(answer.text, tuple(model.intervals), content, by)
    rows = (
        Row(name, one.text or one.attributes.get("value", ""), "time" if name in said else "event", *found.ranks[name], said.get(name))
        for name, one in model.intervals.items()
    )
    return replace(found, rows=tuple(sorted(rows, key=lambda row: (row.start, row.end))))


def ask(
    document: File, first: str, relation: str, second: str, by: Answerer | None = None
) -> Proof | Counterexample | Clash | Fault | TooLong:
    """Whether a relation holds between two intervals in every timeline that fits: a proof, or a timeline in which it is false.

    A timeline has a rank for each start and end, of which only the order counts.
    """
    expect_words(first=first, relation=relation, second=second)
    answer = answer_to(by, "ask", document, arguments=(first, relation, second))
    asked = Relation(first, relation, second)
    return told(answer, clash_of, lambda _: read_proof(answer.text, asked, accepted_of(answer), answer.files[0]))


def relations(
    document: File, by: Answerer | None = None, *, one_per_pair: bool = False, both_directions: bool = False
) -> list[Relation] | Clash | Fault | TooLong:
    """All relations that hold in every timeline that fits, each from an interval to one after it in the document.

    With `one_per_pair` of each two intervals only the strongest one, from which the others follow: SIMULTANEOUS of those that have the same
    start and the same end. With `both_directions` each is followed by the same the other way round.
    """
    answer = answer_to(by, "relations", document)
    problem = clash_of(answer)
    if problem is not None:
        return problem
    found = read_relations(answer.text)
    chosen = strongest(found) if one_per_pair else found
    return list(chain.from_iterable((one, turned(one)) for one in chosen)) if both_directions else chosen


def strongest(found: Iterable[Relation]) -> list[Relation]:
    """Of each two intervals the one relation from which the others follow: one of Allen's, of which no two can hold, where there is one."""
    by_pair: dict[tuple[str, str], Relation] = {}
    for one in found:
        pair = one.first, one.second
        if pair not in by_pair or (one.relation in BASE_RELATIONS and by_pair[pair].relation not in BASE_RELATIONS):
            by_pair[pair] = one
    return list(by_pair.values())


def turned(one: Relation) -> Relation:
    """The same relation the other way round."""
    return Relation(one.second, INVERSES[one.relation], one.first)


def possible(document: File, first: str, second: str, by: Answerer | None = None) -> Possible | Clash | Fault | TooLong:
    """The base relations that are possible between two intervals, each with a timeline."""
    expect_words(first=first, second=second)
    answer = answer_to(by, "possible", document, arguments=(first, second))
    return told(answer, clash_of, lambda _: read_possible(answer.text, accepted_of(answer).intervals))


def matrix(document: File, by: Answerer | None = None) -> Matrix | Clash | Fault | TooLong:
    """The base relations that are possible between each two intervals."""
    answer = answer_to(by, "matrix", document)
    return told(answer, clash_of, lambda _: read_matrix(io.BytesIO(answer.text), accepted_of(answer).intervals))


def reduce(document: File, by: Answerer | None = None) -> Reduced | Clash | Fault | TooLong:
    """The links of a document without those that follow from others."""
    return told(answer_to(by, "reduce", document), clash_of, lambda answer: read_reduced(answer.text, answer.files[0]))


def score(document: File, key: File, by: Answerer | None = None) -> Score | Clash | KeyClash | Fault | TooLong:
    """How much of a document follows from a key, and the other way round, as fractions: the temporal awareness of TempEval-3."""
    answer = answer_to(by, "score", document, key)
    if answer.status == TmlStatus.CLASH and answer.text == b"key clash\n":
        return KeyClash()
    return told(answer, clash_of, lambda _: read_score(answer.text))


def seconds(document: File, by: Answerer | None = None) -> Placing | Cycle | Fault | TooLong:
    """Seconds for all intervals that meet links, dates and durations, counted from 1970-01-01T00:00:00; or a cycle where there are none."""
    answer = answer_to(by, "seconds", document)
    return told(answer, Answer.problem, lambda _: read_seconds(answer.text, accepted_of(answer).intervals, answer.files[0]))


def canon(document: File, by: Answerer | None = None) -> bytes | Fault | TooLong:
    """The canonical text of a document: two accepted documents have the same exactly where they say the same."""
    return told(answer_to(by, "canon", document), Answer.problem, lambda answer: answer.text)


def verify(document: File, evidence: File, by: Answerer | None = None) -> Verified | Malformed | Refused | Fault | TooLong:
    """What evidence shows of a document, where it is right."""
    return told(answer_to(by, "verify", document, evidence), Answer.refusal, lambda answer: Verified(read_claims(answer.text)))


def confirm(document: File, text: File, by: Answerer | None = None) -> Confirmed | Malformed | Refused | Fault | TooLong:
    """Whether the text of a placing or of a cycle is right for a document."""
    answer = answer_to(by, "confirm", document, text)
    return told(answer, Answer.refusal, lambda _: Confirmed("placing" if answer.text == b"confirmed placing\n" else "cycle"))


def renew(evidence: File, by: Answerer | None = None) -> bytes | Malformed | TooLong:
    """The same evidence as a text of version 2."""
    return told(answer_to(by, "renew", evidence), Answer.malformed, lambda answer: answer.text)


def join(evidence: File, second: File, by: Answerer | None = None) -> bytes | Malformed | TooLong:
    """The claims of two texts of evidence as one text."""
    return told(answer_to(by, "join", evidence, second), Answer.malformed, lambda answer: answer.text)


def drill(number: int, by: Answerer | None = None) -> Drill:
    """The self-test of the library or the program, over a document of so many events: its bytes, its links, and what was found of them."""
    if number not in range(1, INTERVAL_LIMIT + 1):
        raise ValueError(f"there is no drill {number}")
    return read_drill(answer_to(by, "drill", arguments=(str(number),)).text)


complete(globals())
