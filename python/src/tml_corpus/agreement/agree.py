"""How far the links of two annotations of the same texts agree: their files, paired by name, and what `tml score` says of each pair."""

from __future__ import annotations

import os
from collections.abc import Iterator, Sequence
from dataclasses import dataclass, field
from functools import partial
from typing import TYPE_CHECKING

from tml.reading import read_score
from tml.replies import OF_KEY
from tml.results import Score
from tml.statuses import TmlStatus

from ..asking.program import ACCEPTED, CLASH, FAULT, CannotRun, Program, Reply
from ..asking.room import room_for
from ..clash.fitting import Fitting, fitting
from ..document.reduced import problem_of
from ..document.words import Wording
from ..files.finding import CannotRead, Found, find_files, read_document
from .disagreements import Disagreement, Side, links_that_do_not_follow

if TYPE_CHECKING:
    from ..command_line.run import Run

NO_PARTNER, WITH_FAULT, WITH_CLASH, NOT_JUDGED = "without a partner", "with a fault", "with a clash", "not judged"
REASONS = (NO_PARTNER, WITH_FAULT, WITH_CLASH, NOT_JUDGED)
"""Why a file is skipped."""


@dataclass(frozen=True)
class NotCounted:
    """A file for which its pair is not counted, or that has no partner: one of the reasons, and a sentence on it."""

    path: str
    reason: str
    text: str


@dataclass(frozen=True)
class Sides:
    """Where the two annotations lie: they are two folders, or two files."""

    documents: str
    keys: str
    are_folders: bool

    def name_of(self, path: str) -> str:
        """The name by which a file of the documents is paired."""
        return os.path.relpath(path, self.documents) if self.are_folders else os.path.basename(path)

    def key_of(self, path: str) -> str:
        """The path of the file of the keys that goes with one of the documents."""
        return beside(path, self.documents, self.keys) if self.are_folders else self.keys


def sides_of(documents: str, keys: str) -> Sides:
    """The two annotations at two paths."""
    are_folders = [os.path.isdir(place) for place in (documents, keys)]
    if any(are_folders) and not all(are_folders):
        raise CannotRun(f"{documents} and {keys} have to be two folders, or two files")
    return Sides(documents, keys, all(are_folders))


def beside(path: str, folder: str, other: str) -> str:
    """The path in another folder of the file that lies in a folder."""
    return os.path.join(other, os.path.relpath(path, folder))


@dataclass(frozen=True)
class Wanted:
    """What is asked besides the scores: the links that do not follow; and whether links between dates that touch are read so."""

    links: bool = False
    touching: bool = False


Documents = tuple[bytes, bytes]
"""A document and its key."""


@dataclass
class PairReport:
    """What became of a pair: the scores and the links that do not follow in the other document, or why it is not counted."""

    name: str
    path: str
    key_path: str
    scores: Score | None = None
    not_counted: NotCounted | None = None
    disagreements: list[Disagreement] = field(default_factory=list)
    readings: str = ""
    """The lines on links between dates that touch, where these are read as the relation that holds."""


@dataclass(frozen=True)
class Pairs:
    """The files of both sides: those of the documents that have a partner, and what is skipped before anything is read."""

    found: list[Found]
    not_counted: list[NotCounted]


def find_pairs(sides: Sides, patterns: Sequence[str]) -> Pairs:
    """The files of two folders, paired by their names there; or two files."""
    if not sides.are_folders:
        return Pairs([Found(sides.documents)], [])
    documents, keys = find_files([sides.documents], patterns), find_files([sides.keys], patterns)
    key_paths = {os.path.normpath(one.path) for one in keys if one.problem is None}
    pairs = [one for one in documents if one.problem is None and os.path.normpath(sides.key_of(one.path)) in key_paths]
    return Pairs(pairs, [*alone(documents, keys, sides.documents, sides.keys), *alone(keys, documents, sides.keys, sides.documents)])


def alone(found: list[Found], others: list[Found], folder: str, other_folder: str) -> Iterator[NotCounted]:
    """The files of a folder that have no partner in the other one, and what could not be searched."""
    there = {os.path.normpath(one.path) for one in others if one.problem is None}
    for one in found:
        partner = beside(one.path, folder, other_folder)
        if one.problem is not None:
            yield NotCounted(one.path, NOT_JUDGED, one.problem)
        elif os.path.normpath(partner) not in there:
            yield NotCounted(one.path, NO_PARTNER, f"there is no {partner}")


def pair_reports(run: Run, sides: Sides, found: Sequence[Found], wanted: Wanted) -> Iterator[PairReport]:
    """What became of each pair, in the order of the documents."""
    return run.each(partial(compare, run.program, sides, wanted=wanted), found, partial(not_compared, sides))


def not_compared(sides: Sides, found: Found, problem: str) -> PairReport:
    """The report on a pair with which something went wrong."""
    not_counted = NotCounted(found.path, NOT_JUDGED, problem)
    return PairReport(sides.name_of(found.path), found.path, sides.key_of(found.path), not_counted=not_counted)


def compare(program: Program, sides: Sides, found: Found, wanted: Wanted) -> PairReport:
    """Asks `tml score` about a pair."""
    report = PairReport(sides.name_of(found.path), found.path, sides.key_of(found.path))
    documents = read_pair(report, found.base)
    if documents is not None:
        with room_for(max(documents, key=len)):
            compare_documents(program, report, documents, wanted)
    return report


def read_pair(report: PairReport, base: str) -> Documents | None:
    """Both documents of a pair, whose paths are those of a folder; where one cannot be read, that is reported."""
    documents = []
    for path in (report.path, report.key_path):
        try:
            documents.append(read_document(os.path.join(base, path)))
        except CannotRead as problem:
            report.not_counted = NotCounted(path, NOT_JUDGED, str(problem))
            return None
    return documents[0], documents[1]


def compare_documents(program: Program, report: PairReport, written: Documents, wanted: Wanted) -> None:
    """The same of two documents in memory."""
    documents, reply = written, program.score(*written)
    if wanted.touching and reply.status == CLASH:
        documents = read_as_touching(program, report, written)
        reply = program.score(*documents)
    report.not_counted = why_not_counted(report, reply, documents)
    if report.not_counted is not None:
        return
    scores = read_score(reply.text)
    if wanted.links and (scores.matched < scores.document_links or scores.found < scores.key_links):
        pairs = zip((report.path, report.key_path), documents, written, strict=True)
        of_document, of_key = (Side(path, Wording(program, asked), Wording(program, file)) for path, asked, file in pairs)
        report.disagreements = [
            *links_that_do_not_follow(program, of_document, of_key, scores.document_links - scores.matched),
            *links_that_do_not_follow(program, of_key, of_document, scores.key_links - scores.found),
        ]
    report.scores = scores


def read_as_touching(program: Program, report: PairReport, documents: Documents) -> Documents:
    """The documents with links between dates that touch read as the relation that holds, where no timeline fits without that."""
    found = []
    for path, document in zip((report.path, report.key_path), documents, strict=True):
        fits = fitting(program, path, document, "counted", True)
        if isinstance(fits, Fitting):
            report.readings += fits.text
        found.append(fits.document if isinstance(fits, Fitting) else document)
    return found[0], found[1]


def why_not_counted(report: PairReport, reply: Reply, documents: Documents) -> NotCounted | None:
    """Why a pair is not counted, by the answer of `tml score`; None where it is."""
    if reply.status == ACCEPTED:
        return None
    of_key = reply.text.startswith((OF_KEY, b"too long KEY"))
    path, document = (report.key_path if of_key else report.path), documents[of_key]
    text = problem_of(reply, document, reply.text.removeprefix(OF_KEY)) or ""
    reasons: dict[int, str] = {FAULT: WITH_FAULT, CLASH: WITH_CLASH}
    return NotCounted(path, reasons.get(TmlStatus(reply.status), NOT_JUDGED), text)
