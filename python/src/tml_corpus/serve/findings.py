"""What is said of a document while it is written: its faults, its clash and what is suspect, each at its place."""

from __future__ import annotations

from collections.abc import Iterator

from ..asking.program import CLASH
from ..check.placed import Mark, PlacedFault, PlacedWarning
from ..clash.report import TOUCHING, ClashReport, PlacedChange, PlacedClash, PlacedLink
from ..lint.kinds import is_mistake
from .document import OpenDocument
from .wire import Json

ERROR, WARNING, INFORMATION = 1, 2, 3
MOST_RELATED = 16
"""How many other links of a clash stand beside each: those that come next in it."""

SOURCE = "tml"


def findings(document: OpenDocument, *, further: bool) -> list[Json]:
    """What is said of a document: at first the first fault or clash, and then the further ones too."""
    if document.reply.status == CLASH:
        return list(of_clashes(document, document.clashes(further=further)))
    judgement = document.judgement(further=further)
    if judgement.problem is not None:
        return [problem_finding(judgement.problem)]
    faults = [of_fault(document, fault) for fault in judgement.faults]
    return faults + [of_warning(document, one) for one in judgement.warnings]


def has_further(document: OpenDocument) -> bool:
    """Whether there may be more to say than at first."""
    return not document.fits()


def problem_finding(problem: str) -> Json:
    """Why a document was not judged."""
    return remark_finding(f"not judged: {problem}") | {"severity": WARNING, "code": "not-judged"}


def remark_finding(remark: str) -> Json:
    """What is to be said of a document as a whole."""
    start = {"line": 0, "character": 0}
    return {"range": {"start": start, "end": start}, "severity": INFORMATION, "source": SOURCE, "message": remark}


def of_fault(document: OpenDocument, fault: PlacedFault) -> Json:
    """A fault with its cure; its notes stand beside it."""
    perhaps = "; perhaps only a consequence of the faults before" if fault.perhaps_consequence else ""
    found = of_mark(document, fault.mark, ERROR, fault.fault.title(), fault.text + perhaps)
    notes = [(note.place.offset, note.place.offset + 1, note.text) for note in fault.notes]
    return with_related(document, found, notes)


def of_warning(document: OpenDocument, warning: PlacedWarning) -> Json:
    """Something suspect: what is probably a mistake is a warning, and what is missing an information."""
    return of_mark(document, warning.mark, WARNING if is_mistake(warning.name) else INFORMATION, warning.name, warning.text)


def of_mark(document: OpenDocument, mark: Mark, severity: int, code: str, text: str) -> Json:
    """Something that is said of a stretch."""
    return of_stretch(document, mark.start.offset, mark.end.offset, severity, code, text)


def of_stretch(document: OpenDocument, start: int, end: int, severity: int, code: str, text: str) -> Json:
    """Something that is said of a stretch, by its offsets."""
    return {"range": document.places.range(start, end), "severity": severity, "code": code, "source": SOURCE, "message": text}


def with_related(document: OpenDocument, found: Json, notes: list[tuple[int, int, str]]) -> Json:
    """What is said with notes at other places."""
    if notes:
        locations = (({"uri": document.uri, "range": document.places.range(start, end)}, text) for start, end, text in notes)
        found["relatedInformation"] = [{"location": location, "message": text} for location, text in locations]
    return found


def of_clashes(document: OpenDocument, report: ClashReport) -> Iterator[Json]:
    """The links of each clash, those between dates that touch, and what is suspect besides."""
    for fault in report.judgement.faults:
        yield of_fault(document, fault)
    for clash in report.shown_clashes():
        yield from of_clash(document, clash)
    severity = ERROR if report.verdict() == TOUCHING else WARNING
    for change in report.touching:
        yield of_change(document, change, severity)
    for one in report.judgement.warnings:
        yield of_warning(document, one)


def of_clash(document: OpenDocument, clash: PlacedClash) -> Iterator[Json]:
    """Each link of a clash at its place, with the other ones and what the calendar says beside it."""
    others = [(*stretch_of(document, link), link.text) for link in clash.links]
    beside = [(note.place.offset, note.place.offset + 1, note.text) for note in (*clash.calendar, *clash.dates, *clash.cures)]
    for number, (start, end, text) in enumerate(others):
        one = f"clash, {number + 1} of {len(others)}: {text}"
        found = of_stretch(document, start, end, ERROR, "clash", one)
        following = (others[number + 1 :] + others[:number])[:MOST_RELATED]
        yield with_related(document, found, following + beside[:MOST_RELATED])


def of_change(document: OpenDocument, change: PlacedChange, severity: int) -> Json:
    """A link between dates that touch."""
    start, end = stretch_of(document, change.link)
    return of_stretch(document, start, end, severity, "touching", f"{change.link.text}: {change.cure()}")


def stretch_of(document: OpenDocument, link: PlacedLink) -> tuple[int, int]:
    """The tag of a link."""
    tag = document.wording.link_tags[link.link.number]
    return tag.start, tag.end
