"""The forms in which clashes are printed: text, JSON, JUnit and annotations of GitHub, each as `formats` has it for faults."""

from __future__ import annotations

from collections.abc import Callable
from typing import TYPE_CHECKING

from ..check import formats
from ..check.formats import data_text, property_text
from ..check.judgement import Judgement
from ..files.finding import counted, shown
from .report import TOUCHING, ClashReport, ClashSummary, PlacedChange, PlacedClash, PlacedLink, PlacedRepair

if TYPE_CHECKING:
    from tml.places import Place

    from ..check import form


class Form:
    """A form that prints nothing of a file that some timeline fits and of which there is nothing to say, and nothing after all files."""

    summary_apart = False

    def plain(self, path: str) -> str:
        """What is printed of such a file."""
        return ""

    def end(self, summary: ClashSummary) -> str:
        """What comes after all files."""
        return ""


class Text(Form):
    """Lines for each link of a clash and each note, with the line of the document and the relation marked."""

    def __init__(self, with_source: bool, quiet: bool = False) -> None:
        self.judgements, self.quiet = formats.Text(with_source), quiet

    def file(self, report: ClashReport) -> str:
        """What is printed of one file."""
        return self.judgements.file(report.judgement) + "".join(line + "\n" for line in self.lines(report))

    def lines(self, report: ClashReport) -> list[str]:
        """The lines of the clashes of one file."""
        if not (report.clashes or report.touching or report.repair):
            return []
        path = shown(report.judgement.path)
        lines: list[str] = []
        for number, clash in enumerate(report.shown_clashes(), 1):
            lines += clash_lines(path, clash, number)
        if not (report.read_touching and self.quiet):
            lines += touching_lines(path, report)
        if report.repair is not None:
            lines += repair_lines(path, report)
        lines += [f"{path}: evidence in {shown(clash.evidence)}" for clash in report.clashes if clash.evidence is not None]
        return lines


def located(path: str, place: Place, text: str) -> str:
    """A line of the form that editors take up."""
    return f"{formats.located(path, place)}: {shown(text)}"


def clash_lines(path: str, clash: PlacedClash, number: int) -> list[str]:
    """The lines of one clash."""
    lines: list[str] = []
    name = "clash" if number == 1 else f"clash {number}"
    for place, link in enumerate(clash.links, 1):
        lines.append(located(path, link.place(), f"error: {name}, {place} of {len(clash.links)}: {link.text}"))
        lines += link.source
    return lines + [located(path, note.place, f"note: {note.text}") for note in clash.calendar + clash.dates + clash.cures]


def touching_lines(path: str, report: ClashReport) -> list[str]:
    """The lines of links between dates that touch: errors with the line of the document, or how they were read."""
    lines: list[str] = []
    for change in report.touching:
        if report.read_touching:
            lines.append(located(path, change.link.place(), f"note: {change.reading()}"))
        else:
            lines += [located(path, change.link.place(), f"error: {change.cure()}"), *change.link.source]
    return lines


def repair_lines(path: str, report: ClashReport) -> list[str]:
    """The lines of a repair; where any link of the clash that was shown will do, these are not shown again."""
    repair = report.repair
    if repair is None:
        return []
    lines = [f"{path}: repair: {shown(repair.text())}"]
    if len(repair.choices) == 1 and {link.link.number for link in repair.choices[0]} == {
        link.link.number for link in report.clashes[0].links
    }:
        return lines
    for number, choices in enumerate(repair.choices, 1):
        for place, link in enumerate(choices):
            if len(repair.choices) == 1:
                what = f"repair, {place + 1} of {len(choices)}"
            else:
                what = f"repair, link {number} of {len(repair.choices)}" + (", or in its place" if place else "")
            lines.append(located(path, link.place(), f"note: {what}: {link.text}"))
    if repair.choices and repair.smallest and not repair.all_choices:
        lines.append(f"{path}: repair: other links may do as well; not all were asked about")
    return lines


class Objects(Form):
    """One object for each file: on lines of their own, or in one array. Bytes of names that are not UTF-8 are lone surrogates."""

    summary_apart = True

    def __init__(self, checked: bool, objects: formats.Lines) -> None:
        self.checked, self.objects = checked, objects

    def file(self, report: ClashReport) -> str:
        return self.objects.element(report_object(report, self.checked))

    def plain(self, path: str) -> str:
        return self.file(ClashReport(Judgement(path)))

    def end(self, summary: ClashSummary) -> str:
        return self.objects.end()


def report_object(report: ClashReport, checked: bool) -> dict[str, object]:
    """A report on clashes as JSON has it."""
    printed, verdict = formats.judgement_object(report.judgement), report.verdict()
    printed["verdict"] = "accepted" if verdict == "fits" and checked else verdict
    printed["clashes"] = [clash_object(clash) for clash in report.clashes]
    printed["touching"] = [change_object(change) for change in report.touching]
    printed["readTouching"] = report.read_touching
    if report.repair is not None:
        printed["repair"] = repair_object(report.repair)
    return printed


def link_object(link: PlacedLink) -> dict[str, object]:
    """A link as JSON has it."""
    of = link.link
    names = {"number": of.number, "lid": of.lid or None, "left": of.left, "relation": of.relation, "right": of.right}
    return {**names, **formats.place_object(link.place()), "message": link.text}


def clash_object(clash: PlacedClash) -> dict[str, object]:
    """A clash as JSON has it."""
    printed: dict[str, object] = {"links": [link_object(link) for link in clash.links]}
    for name, notes in (("calendar", clash.calendar), ("dates", clash.dates), ("cures", clash.cures)):
        printed[name] = list(map(formats.note_object, notes))
    if clash.evidence is not None:
        printed["evidence"] = clash.evidence
    return printed


def change_object(change: PlacedChange) -> dict[str, object]:
    """A link between dates that touch, as JSON has it."""
    return {"link": link_object(change.link), "holds": change.relation, "message": change.cure()}


def repair_object(repair: PlacedRepair) -> dict[str, object]:
    """A repair as JSON has it: for each link to leave out, those of which any one will do."""
    choices = [[link_object(link) for link in links] for links in repair.choices]
    known = {"smallest": repair.smallest, "allChoices": repair.all_choices, "atLeast": repair.at_least}
    return {"choices": choices, **known, "message": repair.text()}


def headline(clash: PlacedClash) -> str:
    """A clash in one line."""
    if len(clash.links) == 1:
        return f"clash of one link with the dates: {clash.links[0].text}"
    return f"clash of {len(clash.links)} links, which cannot all be true: {clash.links[0].text}"


def first_line(report: ClashReport) -> str:
    """The clash of a file in one line."""
    path = shown(report.judgement.path)
    if report.verdict() == TOUCHING:
        return located(path, report.touching[0].link.place(), report.touching[0].cure())
    return located(path, report.clashes[0].links[0].place(), headline(report.clashes[0]))


class JUnit(Form):
    """One test case for each file."""

    summary_apart = True

    def __init__(self, name: str, with_source: bool, strict: bool) -> None:
        from ..check.junit import Suite

        self.lines, self.suite, self.strict = Text(with_source), Suite(name), strict

    def file(self, report: ClashReport) -> str:
        judgement = report.judgement
        failure = formats.first_failure(judgement, False)
        if failure is None and report.verdict() in ("clash", TOUCHING):
            failure = report.verdict(), first_line(report)
        failure = failure or formats.first_failure(judgement, self.strict)
        self.suite.file(judgement.path, judgement.problem, failure, self.lines.file(report))
        return ""

    def plain(self, path: str) -> str:
        return self.file(ClashReport(Judgement(path)))

    def end(self, summary: ClashSummary) -> str:
        return self.suite.text()


class GitHub(Form):
    """A workflow command of GitHub for each clash, which GitHub shows beside the line of its first link, and for each link of dates that
    touch."""

    def file(self, report: ClashReport) -> str:
        path = report.judgement.path
        lines = [formats.GitHub().file(report.judgement)]
        for number, clash in enumerate(report.shown_clashes(), 1):
            title = f"clash of {counted(len(clash.links), 'link')}"
            lines.append(
                command(
                    path, clash.links[0].place(), title, "\n".join(message_lines(clash) + (repair_message(report) if number == 1 else []))
                )
            )
        if not report.read_touching:
            lines += [command(path, change.link.place(), TOUCHING, shown(change.cure())) for change in report.touching]
        return "".join(lines)


def command(path: str, place: Place, title: str, text: str) -> str:
    """A workflow command."""
    where = f"file={property_text(shown(path))},line={place.line},col={place.column},title={property_text(title)}"
    return f"::error {where}::{data_text(text)}\n"


def beside(place: Place, text: str) -> str:
    """A line of a message."""
    return f"{place.line}:{place.column}: {shown(text)}"


def message_lines(clash: PlacedClash) -> list[str]:
    """A clash in lines."""
    lines = [shown(headline(clash)), *(beside(link.place(), link.text) for link in clash.links[1:])]
    return lines + [beside(note.place, note.text) for note in clash.calendar + clash.dates + clash.cures]


def repair_message(report: ClashReport) -> list[str]:
    """A repair in lines."""
    if report.repair is None:
        return []
    return [shown(report.repair.text()), *(beside(link.place(), link.text) for links in report.repair.choices for link in links)]


def make_format(name: str, with_source: bool, quiet: bool, checked: bool, strict: bool) -> form.Form[ClashReport, ClashSummary]:
    """The format of a name, for `check --clashes` or for `clashes`."""
    makers: dict[str, Callable[[], form.Form[ClashReport, ClashSummary]]] = {
        "text": lambda: Text(with_source, quiet),
        "json": lambda: Objects(checked, formats.Array()),
        "jsonl": lambda: Objects(checked, formats.Lines()),
        "junit": lambda: JUnit("tml check" if checked else "tml clashes", with_source, strict),
        "github": GitHub,
    }
    return makers[name]()
