"""The forms in which judgements are reported: text, JSON, JUnit and annotations of GitHub.

Each of them has the number and the name of a fault, and the byte at which `tml` reports it.
"""

from __future__ import annotations

from collections import Counter
from typing import TYPE_CHECKING

from ..files.finding import counted, shown
from ..lint.kinds import is_mistake
from .judgement import Judgement

if TYPE_CHECKING:
    from tml.places import Place

    from .form import Form
    from .placed import Mark, PlacedFault, PlacedNote, PlacedWarning

CONSEQUENCE = "(perhaps only a consequence)"
JSON_VERSION = 1
"""The version of all objects of JSON, which docs/schema describes. It grows when a field goes or gets another meaning."""


class WarningCounts:
    """How many warnings there are of each kind, and in how many files: of mistakes, and apart from them of what is missing."""

    def __init__(self) -> None:
        self.kinds: Counter[str] = Counter()
        self.ranks: Counter[bool] = Counter()
        self.files = 0

    def add(self, judgement: Judgement) -> None:
        """Counts the warnings of one file."""
        names = [warning.name for warning in judgement.warnings]
        ranks = {is_mistake(name) for name in names}
        self.kinds.update(names)
        self.ranks.update(ranks)
        self.files += bool(names)

    def lines(self) -> list[str]:
        """The counts in lines; nothing where there are none."""
        return [*self.lines_of(True, "probable mistake", "probable mistakes"), *self.lines_of(False, "thing missing", "things missing")]

    def lines_of(self, rank: bool, one: str, many: str) -> list[str]:
        """The counts of one rank."""
        kinds = sorted((name, count) for name, count in self.kinds.items() if is_mistake(name) == rank)
        total = sum(count for _, count in kinds)
        first = f"{total} {one if total == 1 else many} in {counted(self.ranks[rank], 'file')}"
        return [first, *(f"{count:7}  {name}" for name, count in kinds)] if kinds else []


def not_looked_for(*, lint: bool, clashes: bool) -> list[str]:
    """What was not asked for, in a line, so that nobody takes a summary for more than it is; nothing where both were."""
    kinds = {"probable mistakes (--lint)": lint, "contradictions (--clashes)": clashes}
    left_out = [kind for kind, is_wanted in kinds.items() if not is_wanted]
    return [f"not looked for: {', '.join(left_out)}"] if left_out else []


class Summary:
    """How many files there are, and what became of them; a file counts by its first fault. Clashes were not looked for."""

    def __init__(self, files: int, *, lint: bool) -> None:
        self.files, self.lint = files, lint
        self.accepted = self.problems = self.further = self.consequences = 0
        self.first_faults: Counter[tuple[int, str]] = Counter()
        self.warnings = WarningCounts()

    def add(self, judgement: Judgement) -> None:
        """Counts one file: wholly, or not at all where something is raised, which comes first."""
        is_accepted, first = judgement.accepted(), judgement.faults[0].fault if judgement.faults else None
        title = first.title() if first is not None else ""
        self.warnings.add(judgement)
        self.accepted += is_accepted
        self.problems += judgement.problem is not None
        self.further += max(len(judgement.faults) - 1, 0)
        self.consequences += sum(fault.perhaps_consequence for fault in judgement.faults)
        if first is not None:
            self.first_faults[first.number, title] += 1

    def add_plain(self) -> None:
        """Counts one file that is accepted, and of which there is nothing to say."""
        self.accepted += 1

    def faulty(self) -> int:
        """The files with a fault."""
        return sum(self.first_faults.values())

    def judged(self) -> int:
        """The files that were looked at."""
        return self.accepted + self.problems + self.faulty()

    def status(self, strict: bool = False) -> int:
        """0 where all are accepted, 2 where something could not be judged, else 1; a warning counts where this is strict."""
        return 2 if self.problems else 1 if self.faulty() or (strict and self.warnings.files) else 0

    def text(self, interrupted: bool) -> str:
        """The summary in lines."""
        lines = [f"{counted(self.files, 'file')}: {self.accepted} accepted, {self.faulty()} with a fault, {self.problems} not judged"]
        lines += [f"{count:7}  {title}" for (_, title), count in sorted(self.first_faults.items())]
        if self.further:
            perhaps = f", {self.consequences} of them perhaps only consequences" if self.consequences else ""
            lines.append(f"{self.further:7}  further faults of these files{perhaps}")
        lines += self.warnings.lines()
        lines += not_looked_for(lint=self.lint, clashes=False)
        if interrupted:
            lines.append(f"interrupted: {self.judged()} of {self.files} files were looked at")
        return "".join(line + "\n" for line in lines)


def located(path: str, place: Place) -> str:
    """`path:line:col`, the form that editors take up."""
    return f"{shown(path)}:{place.line}:{place.column}"


def message(fault: PlacedFault) -> str:
    """The fault in words."""
    perhaps = f" {CONSEQUENCE}" if fault.perhaps_consequence else ""
    return f"{fault.fault.title()}: {shown(fault.text)}{perhaps} [byte {fault.fault.offset}]"


def warning_message(warning: PlacedWarning) -> str:
    """The warning in words."""
    return f"{shown(warning.text)} [{warning.name}]"


class Text:
    """A line for each fault, warning and note; where that is wanted the line of the source besides, with what it is about marked."""

    summary_apart = False

    def __init__(self, with_source: bool) -> None:
        self.with_source = with_source

    def file(self, judgement: Judgement) -> str:
        """What is reported of one file."""
        lines = [f"{shown(judgement.path)}: not judged: {shown(judgement.problem)}"] if judgement.problem else []
        for fault in judgement.faults:
            lines.append(f"{located(judgement.path, fault.mark.start)}: error: {message(fault)}")
            lines += self.source(fault.mark)
            lines += [f"{located(judgement.path, note.place)}: note: {shown(note.text)}" for note in fault.notes]
        for warning in judgement.warnings:
            lines.append(f"{located(judgement.path, warning.mark.start)}: warning: {warning_message(warning)}")
            lines += self.source(warning.mark)
        return "".join(line + "\n" for line in lines)

    def plain(self, path: str) -> str:
        """What is reported of a file that is accepted, and of which there is nothing to say."""
        return ""

    def source(self, mark: Mark) -> list[str]:
        """The line of the source, and the mark below it."""
        return mark.source if self.with_source else []

    def end(self, summary: Summary) -> str:
        """What comes after all files."""
        return ""


class Lines:
    """Objects of JSON on lines of their own."""

    def element(self, entry: dict[str, object]) -> str:
        """What is printed of one more object."""
        return printable(entry)

    def end(self) -> str:
        """What comes after all objects."""
        return ""


class Array(Lines):
    """The objects of lines of JSON as the elements of one array."""

    def __init__(self) -> None:
        self.is_begun = False

    def element(self, entry: dict[str, object]) -> str:
        begin, self.is_begun = (",\n" if self.is_begun else "[\n"), True
        return begin + printable(entry).rstrip("\n")

    def end(self) -> str:
        return "\n]\n" if self.is_begun else "[]\n"


class Objects:
    """One object for each file: on lines of their own, or in one array. Bytes of names that are not UTF-8 are lone surrogates."""

    summary_apart = True

    def __init__(self, objects: Lines) -> None:
        self.objects = objects

    def file(self, judgement: Judgement) -> str:
        return self.objects.element(judgement_object(judgement))

    def plain(self, path: str) -> str:
        return self.file(Judgement(path))

    def end(self, summary: Summary) -> str:
        return self.objects.end()


def printable(entry: dict[str, object]) -> str:
    """An object on a line of JSON, after its version. In a log `##` may begin a command, so it is escaped; only strings have it."""
    import json

    return json.dumps({"version": JSON_VERSION, **entry}).replace("##", "\\u0023#") + "\n"


def judgement_object(judgement: Judgement) -> dict[str, object]:
    """A judgement as JSON has it."""
    verdict = "not judged" if judgement.problem else "fault" if judgement.faults else "accepted"
    entry: dict[str, object] = {"path": judgement.path, "verdict": verdict}
    if judgement.problem:
        entry["problem"] = judgement.problem
    entry["faults"] = [fault_object(fault) for fault in judgement.faults]
    entry["warnings"] = [warning_object(warning) for warning in judgement.warnings]
    return entry


def fault_object(fault: PlacedFault) -> dict[str, object]:
    """A fault as JSON has it: the offset, line and column are those of the byte at which `tml` reports it."""
    return {
        "number": fault.fault.number,
        "name": fault.fault.name,
        **place_object(fault.place),
        "message": fault.text,
        "meaning": fault.fault.sentence(),
        "start": place_object(fault.mark.start),
        "end": place_object(fault.mark.end),
        "perhapsConsequence": fault.perhaps_consequence,
        "notes": [note_object(note) for note in fault.notes],
    }


def warning_object(warning: PlacedWarning) -> dict[str, object]:
    """A warning as JSON has it."""
    return {
        "name": warning.name,
        "rank": "mistake" if is_mistake(warning.name) else "missing",
        "message": warning.text,
        "start": place_object(warning.mark.start),
        "end": place_object(warning.mark.end),
    }


def note_object(note: PlacedNote) -> dict[str, object]:
    """A note as JSON has it."""
    return place_object(note.place) | {"message": note.text}


def place_object(place: Place) -> dict[str, object]:
    """A place as JSON has it."""
    return {"offset": place.offset, "line": place.line, "column": place.column}


def first_failure(judgement: Judgement, strict: bool) -> tuple[str, str] | None:
    """The kind of the first fault, or where this is strict of the first warning, and one line on it."""
    if judgement.faults:
        fault = judgement.faults[0]
        return fault.fault.title(), f"{located(judgement.path, fault.mark.start)}: {message(fault)}"
    if judgement.warnings and strict:
        warning = judgement.warnings[0]
        return warning.name, f"{located(judgement.path, warning.mark.start)}: {warning_message(warning)}"
    return None


class GitHub:
    """A workflow command of GitHub for each fault and warning, which GitHub shows beside the line."""

    summary_apart = False

    def file(self, judgement: Judgement) -> str:
        file = property_text(shown(judgement.path))
        lines = [f"::error file={file}::not judged: {data_text(shown(judgement.problem))}"] if judgement.problem else []
        for fault in judgement.faults:
            title = property_text(fault.fault.title())
            notes = "".join(f"\n{note.place.line}:{note.place.column}: {shown(note.text)}" for note in fault.notes)
            lines.append(f"::error file={file},{stretch(fault.mark)},title={title}::{data_text(message(fault) + notes)}")
        for warning in judgement.warnings:
            lines.append(f"::warning file={file},{stretch(warning.mark)},title={warning.name}::{data_text(warning_message(warning))}")
        return "".join(line + "\n" for line in lines)

    def plain(self, path: str) -> str:
        return ""

    def end(self, summary: Summary) -> str:
        return ""


def stretch(mark: Mark) -> str:
    """A stretch as the properties of a workflow command have it. GitHub takes an end of the columns only on the same line."""
    first, last = mark.start, mark.end
    one_line = first.line == last.line and last.column > first.column + 1
    return f"line={first.line},col={first.column}" + (f",endColumn={last.column - 1}" if one_line else "")


def data_text(text: str) -> str:
    """A text as the message of a workflow command has it."""
    return text.replace("%", "%25").replace("\r", "%0D").replace("\n", "%0A")


def property_text(text: str) -> str:
    """A text as a property of a workflow command has it."""
    return data_text(text).replace(":", "%3A").replace(",", "%2C")


def make_format(name: str, with_source: bool, strict: bool = False) -> Form[Judgement, Summary]:
    """The format of a name."""
    match name:
        case "text":
            return Text(with_source)
        case "json":
            return Objects(Array())
        case "jsonl":
            return Objects(Lines())
        case "github":
            return GitHub()
        case _:
            from .junit import JUnit

            return JUnit(with_source, strict)
