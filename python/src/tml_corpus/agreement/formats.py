"""The forms in which scores are printed: lines, an object of JSON for each pair, and CSV. The sums over the corpus come last."""

from __future__ import annotations

from collections import Counter
from collections.abc import Callable, Mapping, Sequence
from fractions import Fraction
from typing import Protocol

from tml.results import Score

from ..check.formats import Array, Lines, located, place_object
from ..files.finding import counted, shown
from ..matrix.formats import harmless, in_lines
from .agree import REASONS, NotCounted, PairReport
from .disagreements import Disagreement
from .scores import MEASURES, Corpus, Mean

NONE = "none"
"""What is printed for a measure where there is no link that could count."""

COLUMNS = ("row", "name", "matched", "document links", "found", "key links", *MEASURES, "remark")


class Summary:
    """What was counted and what was not, over a whole corpus."""

    def __init__(self) -> None:
        self.corpus = Corpus()
        self.reasons: Counter[str] = Counter()

    def add(self, report: PairReport) -> None:
        """Counts a pair."""
        if report.scores is not None:
            self.corpus.add(report.scores)
        if report.not_counted is not None:
            self.leave_out(report.not_counted)

    def leave_out(self, one: NotCounted) -> None:
        """Counts what is not counted among the scores."""
        self.reasons[one.reason] += 1

    def status(self) -> int:
        """0 where all is counted, 2 where something could not be judged, else 1."""
        return 2 if self.reasons[REASONS[-1]] else 1 if self.reasons else 0

    def text(self, interrupted: bool) -> str:
        """How much was counted, in a line."""
        reasons = ", ".join(f"{self.reasons[reason]} {reason}" for reason in REASONS)
        end = "interrupted: not all files were looked at\n" if interrupted else ""
        return f"{counted(self.corpus.pairs, 'pair')} counted; skipped: {reasons}\n{end}"


def share(value: Fraction | None) -> str:
    """A fraction as a decimal number."""
    return NONE if value is None else f"{float(value):.3f}"


def mean(one: Mean) -> str:
    """A mean as a decimal number, and of how many pairs it is one."""
    return NONE if one.value is None else f"{one.value:.3f} (of {counted(one.pairs, 'pair')})"


def in_line(scores: Score) -> str:
    """Precision, recall and F1 by their counts and as decimal numbers."""
    of_document = f"precision {scores.matched} of {scores.document_links} ({share(scores.precision)})"
    of_key = f"recall {scores.found} of {scores.key_links} ({share(scores.recall)})"
    return f"{of_document}, {of_key}, F1 {share(scores.f1)}"


class Format(Protocol):
    """A form in which scores are printed."""

    summary_apart: bool
    """Whether the output is for programs, so that a summary goes to standard error."""

    def start(self) -> str:
        """What comes before all pairs: mostly nothing."""
        return ""

    def pair(self, report: PairReport, scores: Score) -> str:
        """What is printed of a pair that is counted."""

    def not_counted(self, one: NotCounted) -> str:
        """What is printed of a file that is not counted."""

    def sums(self, corpus: Corpus) -> str:
        """What comes after all pairs."""


class Text(Format):
    """A line for each pair, below it one for each link that does not follow, and last the sums."""

    summary_apart = False

    def pair(self, report: PairReport, scores: Score) -> str:
        lines = [f"{shown(report.name)}: {in_line(scores)}"]
        lines += [f"{located(one.path, one.place)}: {shown(one.said())}" for one in report.disagreements]
        return report.readings + "".join(line + "\n" for line in lines)

    def not_counted(self, one: NotCounted) -> str:
        return f"{shown(one.path)}: skipped: {shown(one.text)}\n"

    def sums(self, corpus: Corpus) -> str:
        precision, recall, f1 = (mean(corpus.macro(measure)) for measure in MEASURES)
        return f"micro: {in_line(corpus.micro)}\nmacro: precision {precision}, recall {recall}, F1 {f1}\n"


class Objects(Format):
    """One object for each pair and each file that is not counted, and last one with the sums: on lines of their own, or as one array."""

    summary_apart = True

    def __init__(self, objects: Lines) -> None:
        self.objects = objects

    def pair(self, report: PairReport, scores: Score) -> str:
        pair = {"name": report.name, "path": report.path, "key": report.key_path, "readTouching": bool(report.readings)}
        links = [disagreement_object(one) for one in report.disagreements]
        return self.objects.element({**pair, **scores_object(scores), "links": links})

    def not_counted(self, one: NotCounted) -> str:
        return self.objects.element({"path": one.path, "notCounted": one.reason, "problem": one.text})

    def sums(self, corpus: Corpus) -> str:
        means = {measure: corpus.macro(measure) for measure in MEASURES}
        macro = {measure: {"value": one.value, "pairs": one.pairs} for measure, one in means.items()}
        sums: dict[str, object] = {"pairs": corpus.pairs, "micro": scores_object(corpus.micro), "macro": macro}
        return self.objects.element(sums) + self.objects.end()


def scores_object(scores: Score) -> dict[str, object]:
    """Score as JSON has them."""
    counts = {"matched": scores.matched, "documentLinks": scores.document_links, "found": scores.found, "keyLinks": scores.key_links}
    return {**counts, **{measure: number(getattr(scores, measure)) for measure in MEASURES}}


def number(value: Fraction | None) -> float | None:
    """A fraction as a number."""
    return None if value is None else float(value)


def disagreement_object(one: Disagreement) -> dict[str, object]:
    """A link that does not follow as JSON has it."""
    link: dict[str, object] = {"number": one.link.number, "lid": one.link.lid or None}
    link |= {"left": one.link.left, "relation": one.link.relation, "right": one.link.right}
    there = {"other": one.other, "missing": one.missing, "possible": one.possible}
    return {"path": one.path, **place_object(one.place), **link, "words": one.words, **there}


class CommaSeparated(Format):
    """A row for each pair and each file that is not counted, after one with the names of the columns, and last two with the sums."""

    summary_apart = True

    def start(self) -> str:
        return in_lines([COLUMNS])

    def pair(self, report: PairReport, scores: Score) -> str:
        return scores_row("pair", report.name, scores)

    def not_counted(self, one: NotCounted) -> str:
        return in_lines([["not counted", quoted(one.path), *[""] * (len(COLUMNS) - 3), quoted(f"{one.reason}: {one.text}")]])

    def sums(self, corpus: Corpus) -> str:
        means = [corpus.macro(measure) for measure in MEASURES]
        remark = f"means of {', '.join(str(one.pairs) for one in means)} pairs"
        macro = ["macro", "", "", "", "", "", *("" if one.value is None else one.value for one in means), remark]
        return scores_row("micro", "", corpus.micro) + in_lines([macro])


def quoted(text: str) -> str:
    """A name or a sentence that is harmless in a log and in a spreadsheet."""
    return harmless(shown(text))


def scores_row(kind: str, name: str, scores: Score) -> str:
    """A row with scores."""
    counts: Sequence[object] = (scores.matched, scores.document_links, scores.found, scores.key_links)
    measures = (number(getattr(scores, measure)) for measure in MEASURES)
    return in_lines([[kind, quoted(name), *counts, *("" if value is None else value for value in measures), ""]])


def printed(form: Format, report: PairReport) -> str:
    """What a form prints of a pair, or of the file for which it is not counted."""
    if report.not_counted is not None:
        return form.not_counted(report.not_counted)
    return "" if report.scores is None else form.pair(report, report.scores)


def make_format(name: str) -> Format:
    """The form of a name."""
    json: Mapping[str, Callable[[], Lines]] = {"json": Array, "jsonl": Lines}
    return Objects(json[name]()) if name in json else Text() if name == "text" else CommaSeparated()
