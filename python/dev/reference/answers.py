"""What comes next in each command, and the texts of answers: docs/COMMANDS.md."""

from __future__ import annotations

import functools
from collections.abc import Callable, Iterable, Iterator, Mapping, Sequence
from dataclasses import dataclass, field
from enum import IntEnum

from .acceptance import Accepted, judge_document
from .canonical import canonical_text
from .checking import Reason, are_supported, first_refusal, refusal
from .dates import bounds_of, line_of
from .drill import drill_text
from .evidence import Claims, Clash, Counterexample, Entailment, Evidence, Timeline, read_claims, text_of_claims, timeline_lines
from .faults import Fault
from .nets import Net
from .placings import Placing, place, timed_of
from .possible import least_of_each, possible_rows
from .reduced import reduced, scores_of
from .references import Document
from .relations import RELATIONS, orders_of
from .seconds import HEAD, read_seconds, why_refused, wrong_seconds
from .timelines import all_links, entailed_rows, false_timeline, is_minimal_clash, least_timeline
from .units import cut, longest_utf8, source_fault, table_of

LONGEST_DOCUMENT = 4_194_304
LONGEST_EVIDENCE = 67_108_864
LONGEST_PRINTED = 55_000_000

FORMS = (
    "spans DOC",
    "check DOC",
    "dates DOC",
    "solve DOC",
    "ask DOC X REL Y",
    "relations DOC",
    "canon DOC",
    "verify DOC EVIDENCE",
    "drill N",
    "renew EVIDENCE",
    "join EVIDENCE SECOND",
    "possible DOC X Y",
    "matrix DOC",
    "reduce DOC",
    "score DOC KEY",
    "seconds DOC",
    "confirm DOC SECONDS",
)
DRILLS = {b"%d" % number: number for number in range(1, 1025)}


class Status(IntEnum):
    """The statuses of *The outcome of a run*."""

    DONE = 0
    DOC_FAULT = 1
    CLASH = 2
    USAGE = 3
    READ_FAULT = 4
    WRITE_FAULT = 5
    NO_MEMORY = 6
    EVIDENCE_FAULT = 7
    UNKNOWN_NAME = 8
    TOO_LONG = 9


@dataclass(frozen=True)
class Outcome:
    """How a run ends: its status, and what was written to standard output."""

    status: int
    text: bytes


@dataclass(frozen=True)
class Form:
    """The texts of a kind: how those begin that are printed, and what a text says, or its bad line."""

    head: bytes
    read: Callable[[bytes], object]


OF_CLAIM = Form(b"tml-evidence 2\nclaims 1\n", read_claims)
OF_SECONDS = Form(HEAD, read_seconds)


@dataclass(frozen=True)
class Free:
    """An outcome whose text is free: its status, what is wrong with a text, if something is, and of which kind the text is."""

    status: int
    complaint: Callable[[bytes], str | None] = field(compare=False)
    form: Form = OF_CLAIM

    def is_right(self, text: bytes) -> bool:
        """Whether it may be the text."""
        return self.complaint(text) is None


Answer = Outcome | Free
Files = Mapping[bytes, bytes]


def lines(*texts: bytes) -> bytes:
    """Lines, each of which ends with a line feed."""
    return b"".join(text + b"\n" for text in texts)


def done(text: bytes) -> Outcome:
    """Done, with a text."""
    return Outcome(Status.DONE, text)


USAGE = Outcome(Status.USAGE, lines(b"usage:", *(b"tml " + form.encode() for form in FORMS)))
READ_FAULT = Outcome(Status.READ_FAULT, b"read fault\n")


def read(files: Files, name: bytes, limit: int, word: bytes) -> bytes | Outcome:
    """What a file holds; or the reply where it is not there, or has more bytes than it may."""
    if name not in files:
        return READ_FAULT
    return files[name] if len(files[name]) <= limit else Outcome(Status.TOO_LONG, b"too long " + word + b"\n")


def spans(source: bytes) -> Outcome:
    """`spans DOC`, after a document."""
    fault = source_fault(source)
    return Outcome(Status.DOC_FAULT, fault.line()) if fault else done(table_of(cut(source)[0]))


def check(accepted: Accepted) -> Outcome:
    """`check DOC`: the counts, the intervals and the links."""
    document = accepted.document
    words = zip((b"events", b"instances", b"timex", b"signals", b"tlinks", b"alinks", b"slinks"), document.counts.values(), strict=True)
    counts = [b"%s %d" % pair for pair in words]
    intervals = [b"interval %d %s" % (number, one.name) for number, one in enumerate(document.intervals)]
    return done(lines(b"accepted", *counts, *intervals, *link_lines(document, range(len(document.links)))))


def link_lines(document: Document, links: Iterable[int]) -> Iterator[bytes]:
    """The lines of some links."""
    for number in links:
        one = document.links[number]
        yield b"tlink %d %s" % (number, related(document, one.left, one.relation, one.right))


def related(document: Document, left: int, relation: bytes, right: int) -> bytes:
    """A relation between the names of two intervals."""
    return b"%s %s %s" % (document.intervals[left].name, relation, document.intervals[right].name)


def dates(accepted: Accepted) -> Outcome:
    """`dates DOC`: the line of each time."""
    times = [(one.name, one.time) for one in accepted.document.intervals if one.time]
    return done(b"".join(line_of(name, bounds_of(time)) for name, time in times))


def canon(accepted: Accepted) -> Outcome:
    """`canon DOC`: the canonical text of the tree."""
    return done(canonical_text(accepted.tree))


def printed(evidence: Evidence) -> bytes:
    """The text of evidence as it is printed: that of one claim."""
    return text_of_claims((evidence,))


def wrong_evidence(net: Net, text: bytes) -> Evidence | str:
    """The evidence whose text it is, where a net supports it and it may be printed; else what is wrong."""
    if len(text) > LONGEST_PRINTED:
        return f"the text has {len(text)} bytes"
    claims = read_claims(text)
    if isinstance(claims, int):
        return f"it is not the text of evidence: line {claims} is bad"
    if text != printed(claims[0]):
        return "it is not the text of one claim, of version 2"
    refused = refusal(net, claims[0])
    return f"the net does not support the evidence: {refused}" if refused else claims[0]


def wrong_walk(net: Net, steps: Sequence[object]) -> str | None:
    """What is wrong with the length of a walk."""
    return f"a walk has {len(steps)} steps, and there are {net.points()} points" if len(steps) > 2 * net.points() else None


def wrong_clash(net: Net, text: bytes) -> str | None:
    """What is wrong with the text of a minimal clash (*Proved clashes*)."""
    evidence = wrong_evidence(net, text)
    if isinstance(evidence, str):
        return evidence
    if not isinstance(evidence, Clash):
        return "it is not the text of a clash"
    if not is_minimal_clash(net, evidence.cites):
        return f"the links {evidence.cites} are not a minimal clash"
    for cite, spare in zip(evidence.cites, evidence.spares, strict=True):
        if spare != least_timeline(net, [other for other in evidence.cites if other != cite]):
            return f"the spare of link {cite} is not the least one"
    return wrong_walk(net, evidence.walk)


def clash(net: Net) -> Free:
    """Clash, the text of a minimal clash, which is free."""
    return Free(Status.CLASH, functools.partial(wrong_clash, net))


def solve(accepted: Accepted) -> Answer:
    """`solve DOC`: the least timeline that fits, or a minimal clash."""
    net = accepted.document.net()
    ranks = least_timeline(net, all_links(net))
    return clash(net) if ranks is None else done(printed(Timeline(ranks)))


def relations(accepted: Accepted) -> Answer:
    """`relations DOC`: all relations that follow, or a minimal clash."""
    net = accepted.document.net()
    if least_timeline(net, all_links(net)) is None:
        return clash(net)
    return done(lines(*(related(accepted.document, *row) for row in entailed_rows(net))))


def wrong_proof(net: Net, left: int, relation: bytes, right: int, text: bytes) -> str | None:
    """What is wrong with the text of a proof that a relation follows."""
    evidence = wrong_evidence(net, text)
    if isinstance(evidence, str):
        return evidence
    if not isinstance(evidence, Entailment):
        return "it is not the text of an entailment"
    if (evidence.left, evidence.relation, evidence.right) != (left, relation, right):
        return "it is the proof of another relation"
    return next((wrong for walk in evidence.walks if (wrong := wrong_walk(net, walk))), None)


def ask(accepted: Accepted, first: bytes, relation: bytes, second: bytes) -> Answer:
    """*What `ask` answers*: the first of the five lines that applies."""
    left, right = accepted.document.number_of(first), accepted.document.number_of(second)
    if left is None:
        return Outcome(Status.UNKNOWN_NAME, b"unknown X\n")
    if relation not in RELATIONS:
        return Outcome(Status.UNKNOWN_NAME, b"unknown REL\n")
    if right is None:
        return Outcome(Status.UNKNOWN_NAME, b"unknown Y\n")
    net = accepted.document.net()
    if least_timeline(net, all_links(net)) is None:
        return clash(net)
    for order in orders_of(left, relation, right):
        ranks = false_timeline(net, order)
        if ranks is not None:
            return done(printed(Counterexample(left, relation, right, ranks)))
    return Free(Status.DONE, functools.partial(wrong_proof, net, left, relation, right))


def possible(accepted: Accepted, first: bytes, second: bytes) -> Answer:
    """*What `possible` answers*: each base relation that is possible, and the least timeline that has it."""
    left, right = accepted.document.number_of(first), accepted.document.number_of(second)
    if left is None or right is None:
        return Outcome(Status.UNKNOWN_NAME, b"unknown X\n" if left is None else b"unknown Y\n")
    net = accepted.document.net()
    if least_timeline(net, all_links(net)) is None:
        return clash(net)
    found = least_of_each(net, left, right)
    shown = [line for relation, ranks in found.items() for line in (b"relation " + relation, *timeline_lines(ranks))]
    return done(lines(b"possible %d" % len(found), *shown))


def matrix(accepted: Accepted) -> Answer:
    """`matrix DOC`: of each interval and each one after it the base relations that are possible, or a minimal clash."""
    net = accepted.document.net()
    if least_timeline(net, all_links(net)) is None:
        return clash(net)
    names = [one.name for one in accepted.document.intervals]
    return done(b"".join(b"%s %s %s\n" % (names[left], names[right], b" ".join(found)) for left, right, found in possible_rows(net)))


def reduce(accepted: Accepted) -> Answer:
    """`reduce DOC`: the links without those that follow from the others, or a minimal clash."""
    net = accepted.document.net()
    if least_timeline(net, all_links(net)) is None:
        return clash(net)
    kept = reduced(net)
    return done(lines(b"reduced %d of %d" % (len(kept), len(net.links)), *link_lines(accepted.document, kept)))


def score(accepted: Accepted, source: bytes) -> Answer:
    """`score DOC KEY`: the counts, after a document and a key; or the fault of the key, or which of the two clashes."""
    key = judge_document(source)
    if isinstance(key, Fault):
        return Outcome(Status.DOC_FAULT, b"key " + key.line())
    net, key_net = accepted.document.net(), key.document.net()
    if least_timeline(net, all_links(net)) is None:
        return clash(net)
    if least_timeline(key_net, all_links(key_net)) is None:
        return Outcome(Status.CLASH, b"key clash\n")
    return done(lines(*scores_of(accepted.document, key.document).lines()))


def seconds(accepted: Accepted) -> Free:
    """`seconds DOC`: a placing in whole seconds, or a negative cycle; which one is free."""
    timed = timed_of(accepted.document)
    has_placing = isinstance(place(timed), Placing)
    status = Status.DONE if has_placing else Status.CLASH
    return Free(status, functools.partial(wrong_seconds, timed, has_placing), OF_SECONDS)


def confirm(accepted: Accepted, text: bytes) -> Outcome:
    """`confirm DOC SECONDS`: what is confirmed, the bad line, or the first reason to refuse it."""
    evidence = read_seconds(text)
    if isinstance(evidence, int):
        return Outcome(Status.EVIDENCE_FAULT, b"evidence line %d\n" % evidence)
    refused = why_refused(timed_of(accepted.document), evidence)
    if refused:
        return Outcome(Status.EVIDENCE_FAULT, b"seconds %s\n" % refused.text())
    return done(b"confirmed placing\n" if isinstance(evidence, Placing) else b"confirmed cycle\n")


def claims_of(text: bytes, word: bytes) -> Claims | Outcome:
    """The claims of a text; or the reply where it has none, with the word that stands before its bad line."""
    claims = read_claims(text)
    return Outcome(Status.EVIDENCE_FAULT, b"%s line %d\n" % (word, claims)) if isinstance(claims, int) else claims


def verify(accepted: Accepted, text: bytes) -> Outcome:
    """`verify DOC EVIDENCE`: what each claim shows, the bad line, or the first claim that is refused."""
    claims = claims_of(text, b"evidence")
    if isinstance(claims, Outcome):
        return claims
    net = accepted.document.net()
    refused = first_refusal(net, claims)
    assert (refused is None) == are_supported(net, claims)
    if refused:
        return Outcome(Status.EVIDENCE_FAULT, refused_line(*refused))
    return done(lines(*(b"verified " + shown(accepted.document, evidence) for evidence in claims)))


def refused_line(claim: int, part: int, reason: Reason) -> bytes:
    """The line of a claim that is refused."""
    return b"evidence claim %d part %d %s\n" % (claim, part, reason.text())


def shown(document: Document, evidence: Evidence) -> bytes:
    """What supported evidence shows."""
    if isinstance(evidence, Timeline):
        return b"timeline"
    if isinstance(evidence, Clash):
        return b" ".join([b"clash", *(b"%d" % cite for cite in evidence.cites)])
    word = b"entails " if isinstance(evidence, Entailment) else b"counter "
    return word + related(document, evidence.left, evidence.relation, evidence.right)


def renew(names: Sequence[bytes], files: Files) -> Outcome:
    """`renew EVIDENCE` and `join EVIDENCE SECOND`: the claims of all files, in order. Each file is judged before the next is started."""
    joined: Claims = ()
    for name, word, bad in zip(names, (b"EVIDENCE", b"SECOND"), (b"evidence", b"second"), strict=False):
        text = read(files, name, LONGEST_EVIDENCE, word)
        claims = text if isinstance(text, Outcome) else claims_of(text, bad)
        if isinstance(claims, Outcome):
            return claims
        joined += claims
        files = after_reading(name, files)
    return done(text_of_claims(joined))


def drill(count: int) -> Outcome:
    """*The summary of a drill*."""
    text = drill_text(count)
    accepted = judge_document(text)
    assert isinstance(accepted, Accepted)
    net = accepted.document.net()
    ranks = least_timeline(net, all_links(net))
    assert ranks is not None
    numbers = [b"drill %d" % count, b"bytes %d" % len(text), b"links %d" % len(net.links)]
    return done(lines(*numbers, b"greatest %d" % max(ranks), b"relations %d" % len(entailed_rows(net)), b"verified timeline"))


ABOUT_DOCUMENTS: Mapping[bytes, Callable[[Accepted], Answer]] = {
    b"check": check,
    b"dates": dates,
    b"solve": solve,
    b"relations": relations,
    b"canon": canon,
    b"matrix": matrix,
    b"reduce": reduce,
    b"seconds": seconds,
}


def are_texts(words: Sequence[bytes]) -> bool:
    """Whether all words are UTF-8. Others have no form."""
    return all(longest_utf8(word) == len(word) for word in words)


def files_of(words: Sequence[bytes]) -> list[bytes] | None:
    """*Words*: the names of the files that words of a form may come to reading, in order; none where they have no form."""
    if not are_texts(words):
        return None
    match list(words):
        case []:
            return [b"-"]
        case [b"spans" | b"check" | b"dates" | b"solve" | b"relations" | b"canon" | b"matrix" | b"reduce" | b"seconds", name]:
            return [name]
        case [b"ask", name, _, _, _] | [b"possible", name, _, _]:
            return [name]
        case [b"verify" | b"join" | b"score" | b"confirm", name, other]:
            return [name, other]
        case [b"renew", name]:
            return [name]
        case [b"drill", number] if number in DRILLS:
            return []
    return None


def after_reading(name: bytes, files: Files) -> Files:
    """What files hold once a first one was read: nothing is left of standard input."""
    return {**files, b"-": b""} if name == b"-" else files


def about_document(words: Sequence[bytes], accepted: Accepted, files: Files) -> Answer:
    """What comes next after an accepted document."""
    if words[0] == b"ask":
        return ask(accepted, *words[2:])
    if words[0] == b"possible":
        return possible(accepted, *words[2:])
    if words[0] == b"verify":
        text = read(after_reading(words[1], files), words[2], LONGEST_EVIDENCE, b"EVIDENCE")
        return text if isinstance(text, Outcome) else verify(accepted, text)
    if words[0] == b"score":
        source = read(after_reading(words[1], files), words[2], LONGEST_DOCUMENT, b"KEY")
        return source if isinstance(source, Outcome) else score(accepted, source)
    if words[0] == b"confirm":
        text = read(after_reading(words[1], files), words[2], LONGEST_EVIDENCE, b"SECONDS")
        return text if isinstance(text, Outcome) else confirm(accepted, text)
    return ABOUT_DOCUMENTS[words[0]](accepted)


def answer(words: Sequence[bytes], files: Files) -> Answer:
    """*Rows*: the answer to words over known files, where no device fails and memory suffices."""
    names = files_of(words)
    if names is None:
        return USAGE
    if not names:
        return drill(DRILLS[words[1]])
    if words and words[0] in (b"renew", b"join"):
        return renew(names, files)
    source = read(files, names[0], LONGEST_DOCUMENT, b"DOC")
    if isinstance(source, Outcome):
        return source
    if not words or words[0] == b"spans":
        return spans(source)
    accepted = judge_document(source)
    return Outcome(Status.DOC_FAULT, accepted.line()) if isinstance(accepted, Fault) else about_document(words, accepted, files)
