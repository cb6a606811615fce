"""Answers as sentences in the words of the text: what `str` of an answer says."""

from __future__ import annotations

from collections.abc import Callable, Iterable, Mapping
from fractions import Fraction
from functools import cached_property
from itertools import groupby
from typing import Any

from . import results
from .documents import Document, decoded
from .lines import Ranks, Step
from .matrices import Matrix
from .saying import counted, cut_short, listed, shown
from .statuses import DOCUMENT_LIMIT, EVIDENCE_LIMIT
from .tags.cutting import cut
from .tags.source import Source
from .tags.units import Unit


def sentence(answer: object) -> str:
    """What an answer says."""
    return next(SENTENCES[kind](answer) for kind in type(answer).__mro__ if kind in SENTENCES)


class Wording:
    """The intervals and links of an accepted document in words; only names if the document is not known."""

    def __init__(self, content: bytes) -> None:
        self.source = Source(content, cut(content))

    @cached_property
    def words(self) -> dict[str, str]:
        """The words of the intervals by their names: the texts of events and times, and the values of empty times."""
        source, events = self.source, self.source.identified("EVENT")
        found = {
            values.get("eiid", ""): self.text_of(events[values.get("eventID", "")])
            for _, values in source.valued("MAKEINSTANCE")
            if values.get("eventID", "") in events
        }
        return found | {values.get("tid", ""): self.text_of(tag) or values.get("value", "") for tag, values in source.valued("TIMEX3")}

    @cached_property
    def links(self) -> list[results.Link]:
        """The links by their numbers."""
        said = zip(self.source.links, self.source.tags("TLINK"), strict=True)
        return [results.Link(number, *words, self.source.value(tag, "lid") or None) for number, (words, tag) in enumerate(said)]

    def text_of(self, tag: Unit) -> str:
        """The words of a tag."""
        return decoded(self.source.words_of(tag)).strip()

    def words_of(self, name: str) -> str:
        """The words of an interval on one line, cut if they are long; its name if it has none."""
        return shown(cut_short(self.words.get(name, ""))) or name

    def interval(self, name: str) -> str:
        """An interval by its words and its name."""
        words = self.words_of(name)
        return name if words == name else f"{words} ({name})"

    def numbered(self, number: int) -> str:
        """An interval by its number."""
        names = self.source.intervals
        return self.interval(names[number]) if number < len(names) else f"interval {number}"

    def relation(self, one: results.Relation) -> str:
        """A relation between two intervals."""
        return f"{self.interval(one.first)} {one.relation} {self.interval(one.second)}"

    def link(self, link: results.Link) -> str:
        """A link in words, followed by its own."""
        words = f"{self.words_of(link.first)} {link.relation} {self.words_of(link.second)}"
        return str(link) if words == str(link.says()) else f"{words} ({link})"

    def reason(self, step: Step) -> str:
        """What a step of a walk or a line of a cycle goes by; nothing if that is only that an interval starts before it ends."""
        match step:
            case Step("via", number):
                return self.link(self.links[number]) if number < len(self.links) else f"link {number}"
            case Step("calendar", first, second):
                return f"the dates of {self.numbered(first // 2)} and {self.numbered(second // 2)}"
            case Step("lower" | "upper", point):
                return f"the date of {self.numbered(point // 2)}"
            case Step("least" | "most", number):
                return f"the length of {self.numbered(number)}"
        return ""

    def reasons(self, steps: Iterable[Step]) -> str:
        """What a walk or a cycle goes by, in its order."""
        return ", ".join(reason for reason, _ in groupby(map(self.reason, steps)) if reason)


def in_order(ranks: Mapping[str, Ranks], wording: Wording, names: Iterable[str] | None = None) -> str:
    """Intervals with their ranks, by these."""
    chosen = sorted(ranks if names is None else dict.fromkeys(names), key=ranks.__getitem__)
    return ", ".join(f"{wording.interval(name)} from {ranks[name].start} to {ranks[name].end}" for name in chosen)


def of_tags(answer: results.Accepted | Document, events: int) -> str:
    """How many events, intervals and links a document has."""
    return f"{counted(events, 'event')}, {counted(len(answer.intervals), 'interval')} and {counted(len(answer.links), 'link')}"


def of_clash(clash: results.Clash) -> str:
    """The links of a clash."""
    links = "; ".join(map(Wording(clash.content).link, clash.links))
    if len(clash.links) == 1:
        return f"clash of one link with the dates: {links}"
    dates = " with the dates" if any(step.kind == "calendar" for step in clash.walk) else ""
    return f"clash of {counted(len(clash.links), 'link')}, which cannot all be true{dates}: {links}"


def of_proof(proof: results.Proof) -> str:
    """What is proved, and the links and dates by which each of its walks goes."""
    wording = Wording(proof.content)
    walks = [reasons for reasons in map(wording.reasons, proof.walks) if reasons]
    return f"{wording.relation(proof.relation)}, {'since ' + '; and '.join(walks) if walks else 'whatever the links say'}"


def of_counterexample(found: results.Counterexample) -> str:
    """What does not follow, and the ranks of both intervals in a timeline in which it is false."""
    wording, relation = Wording(found.content), found.relation
    where = in_order(found.ranks, wording, (relation.first, relation.second))
    return f"it does not follow that {wording.relation(relation)}: a timeline that fits has {where}"


def of_timeline(timeline: results.Timeline) -> str:
    """The intervals with their ranks."""
    ranks = in_order(timeline.ranks, Wording(timeline.content))
    return f"timeline of {counted(len(timeline.ranks), 'interval')} by ranks" + (f": {ranks}" if ranks else "")


def of_matrix(matrix: Matrix) -> str:
    """How much is decided."""
    decided = sum(len(matrix.sets[number]) == 1 for number in matrix.cells)
    return f"matrix of {counted(len(matrix.intervals), 'interval')}: {decided} of {counted(len(matrix.cells), 'pair')} decided"


def of_consistent(found: results.Consistent) -> str:
    """How many relations are kept, and which are not."""
    kept = f"{counted(len(found.kept), 'relation')} kept and {len(found.dropped)} dropped"
    return f"{kept}: {listed([*map(str, found.dropped)])}" if len(found.dropped) else kept


def of_score(score: results.Score) -> str:
    """Its measures as fractions, with their counts."""
    values = (measure(value) for value in (score.precision, score.recall, score.f1))
    return "precision {} ({} of {} links), recall {} ({} of {} links), F1 {}".format(
        next(values), score.matched, score.document_links, next(values), score.found, score.key_links, next(values)
    )


def measure(value: Fraction | None) -> str:
    """A measure, if there is one."""
    return "none" if value is None else str(value)


def of_claim(claim: results.Claim) -> str:
    """What a claim shows."""
    return " ".join([claim.kind, *([str(claim.relation)] if claim.relation else []), *(f"link {link}" for link in claim.links)])


def of_too_long(answer: results.TooLong) -> str:
    """The limit of the file."""
    return f"the {answer.file} has more than {DOCUMENT_LIMIT if answer.file in ('document', 'key') else EVIDENCE_LIMIT:,} bytes"


SENTENCES: Mapping[type, Callable[[Any], str]] = {
    results.Accepted: lambda one: f"document with {of_tags(one, one.events)}",
    results.Clash: of_clash,
    results.Confirmed: lambda one: f"the {one.kind} is right",
    results.Consistent: of_consistent,
    results.Counterexample: of_counterexample,
    results.Cycle: lambda one: f"cycle that cannot be met: {Wording(one.content).reasons(one.steps)}",
    Document: lambda one: f"{'document' if one.path is None else shown(one.path)} with {of_tags(one, len(one.events))}",
    results.Drill: lambda one: f"drill of {counted(one.number, 'event')} and {counted(one.links, 'link')}: its timeline was verified",
    results.KeyClash: lambda one: "the links of the key cannot all be true",
    results.Malformed: lambda one: f"line {one.line} of the {one.file} is malformed",
    Matrix: of_matrix,
    results.Placing: lambda one: f"placing of {counted(len(one.seconds), 'interval')} in seconds",
    results.Possible: lambda one: f"{counted(len(one.timelines), 'relation')} possible: {', '.join(one.timelines)}",
    results.Proof: of_proof,
    results.Reduced: lambda one: f"{len(one.links)} of {counted(one.total, 'link')} from which the others follow",
    results.Refused: lambda one: "refused" + ("" if one.claim is None else f": claim {one.claim}, part {one.part}") + f": {one.reason}",
    results.Score: of_score,
    results.Timeline: of_timeline,
    results.TooLong: of_too_long,
    results.Verified: lambda one: f"verified: {listed([*map(of_claim, one.claims)])}",
}
"""How each class of answers is said."""
