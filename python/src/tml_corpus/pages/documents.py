"""What a report has of one document: what became of it, its words, its timeline where there is one, and its counts.

All of it was answered by `tml`, as the other commands ask it.
"""

from __future__ import annotations

from collections import Counter
from dataclasses import dataclass, field, replace

from ..asking.program import Program
from ..asking.room import document_of
from ..check.judgement import Judgement
from ..check.judging import placed_warnings
from ..clash.clashes import is_timeline
from ..clash.first import not_judged
from ..clash.report import TOUCHING, ClashReport, Wanted
from ..clash.search import report_of
from ..clash.touching import touching_copy
from ..document.words import Wording
from ..files.finding import Found
from ..timeline.rows import Timeline
from ..timeline.timeline import verified


@dataclass(frozen=True)
class Counts:
    """What is counted in an accepted document. The pairs of intervals are counted only where some timeline fits."""

    intervals: int
    links: int
    free_dates: int
    relations: Counter[str] = field(default_factory=Counter)
    """Of each relation how many links have it."""

    pairs: int | None = None
    decided: int | None = None


@dataclass(frozen=True)
class Examined:
    """One document: what became of it, and where it was accepted its words, its counts, and its timeline where there is one."""

    report: ClashReport
    wording: Wording | None = None
    counts: Counts | None = None
    timeline: Timeline | None = None


@dataclass(frozen=True)
class Entry:
    """The line of the index on one document: its page, what became of it, and its counts."""

    path: str
    page: str | None
    verdict: str
    said: str = ""
    clashes: int = 0
    touching: int = 0
    warnings: Counter[str] = field(default_factory=Counter)
    counts: Counts | None = None


def examine(program: Program, found: Found, wanted: Wanted) -> Examined:
    """Asks about one file."""
    with document_of(found) as document:
        return examine_document(program, found, document, wanted)


def not_examined(found: Found, problem: str) -> Examined:
    """What there is of a file with which something went wrong."""
    return Examined(not_judged(found, problem))


def examine_document(program: Program, found: Found, document: bytes, wanted: Wanted) -> Examined:
    """Asks about a document in memory: `tml solve` first, which tells a fault too."""
    reply = program.ask(["solve", "-"], document)
    if is_timeline(reply):
        wording = Wording(program, document)
        warnings = placed_warnings(program, wording.source, wanted.lint) if wanted.lint is not None else []
        report = ClashReport(Judgement(found.path, warnings=warnings))
        return counted_in(report, wording, verified(program, found.path, document, reply))
    report = report_of(program, found, document, wanted, reply)
    if not report.judgement.accepted():
        return Examined(report)
    timeline = touching_timeline(program, found.path, document) if report.verdict() == TOUCHING else None
    return counted_in(report, Wording(program, document), timeline)


def touching_timeline(program: Program, path: str, document: bytes) -> Timeline:
    """The timeline of a document whose links between dates that touch are read as the relation that holds."""
    copy = touching_copy(program, document)
    return verified(program, path, copy, program.ask(["solve", "-"], copy))


def counted_in(report: ClashReport, wording: Wording, timeline: Timeline | None) -> Examined:
    """An accepted document with what is counted in it: pairs only if there is a timeline."""
    counts = Counts(len(wording.intervals), len(wording.link_tags), len(free_dates(wording)))
    counts.relations.update(relation for _, relation, _ in wording.source.links)
    if timeline is not None:
        matrix = timeline.matrix
        decided = sum(len(matrix.sets[number]) == 1 for number in matrix.cells)
        counts = replace(counts, pairs=len(matrix.cells), decided=decided)
    return Examined(report, wording, counts, timeline)


def free_dates(wording: Wording) -> list[str]:
    """The names of the dates and times of a day of which the calendar says nothing. Lengths and sets never have a date."""
    free = (name for name, words in wording.dates.items() if words == ["free"])
    return [name for name in free if wording.source.value(wording.tags["TIMEX3"][name], "type") in ("DATE", "TIME")]


def entry_of(examined: Examined, page: str | None) -> Entry:
    """The line of the index."""
    report = examined.report
    judgement, faults = report.judgement, report.judgement.faults
    verdict = "accepted" if report.verdict() == "fits" else report.verdict()
    said = judgement.problem or (faults[0].fault.title() if faults else "")
    warnings = Counter(warning.name for warning in judgement.warnings)
    return Entry(judgement.path, page, verdict, said, len(report.shown_clashes()), len(report.touching), warnings, examined.counts)
