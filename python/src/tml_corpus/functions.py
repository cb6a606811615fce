"""What corpora do often, as functions: they take paths and give values, and the commands of `tml-corpus` print what these give.

The files are those that `tml-corpus` would find, with the settings that it would read; they are worked on by several processes. What
cannot be run raises `tml.CannotRun`; what is wrong with one file is said in its own value.
"""

from __future__ import annotations

import os
from collections.abc import Iterator, Sequence
from contextlib import contextmanager
from dataclasses import dataclass

from .agreement.agree import NotCounted, PairReport, Wanted, find_pairs, pair_reports, sides_of
from .agreement.scores import Corpus
from .asking.pool import Interruption
from .check.first import judgements
from .check.judgement import Judgement
from .clash.first import clash_reports
from .clash.report import ClashReport
from .clash.report import Wanted as WantedOfClashes
from .command_line.main import Words, prepared, settings_of
from .command_line.run import Run
from .lint.kinds import chosen
from .pages.report import INDEX, Folder, reported_files

__all__ = ["Agreement", "Asked", "Report", "agree", "check_folder", "clashes", "report"]


@dataclass(frozen=True)
class Asked:
    """Who is asked, and about which files of folders. What is left out is as `tml-corpus` has it."""

    program: str | None = None
    library: str | None = None
    """A library, or the empty text for none."""
    jobs: int | None = None
    patterns: Sequence[str] | None = None
    settings: str | None = None


@dataclass(frozen=True)
class Agreement:
    """What became of the pairs of two annotations, the files that have no partner, and the sums over all pairs that count."""

    pairs: list[PairReport]
    without_partner: list[NotCounted]
    corpus: Corpus


@dataclass(frozen=True)
class Report:
    """Where the pages of a report begin, and what became of each file."""

    index: str
    files: list[ClashReport]


@contextmanager
def run_over(paths: Sequence[str], asked: Asked) -> Iterator[Run]:
    """A run over paths. An interruption is raised, since the signal is the caller's."""
    words = Words(command="check", paths=paths, library=asked.library, jobs=asked.jobs, config=asked.settings, glob=asked.patterns)
    words.tml, words.named_by = asked.program or None, "Asked.program"
    with prepared(words, settings_of(words), Interruption()) as run:
        yield run


def check_folder(*paths: str, more: int = 0, lint: bool = False, asked: Asked = Asked()) -> list[Judgement]:
    """What `tml` says of each document of some folders and files, in their order; and what is suspect in it, where that is wanted."""
    with run_over(paths, asked) as run:
        found = run.files.search()
        kinds = chosen(run.settings.ignore, run.settings.warn) if lint else None
        given = judgements(run, found, True, more, kinds)
        return [judgement or Judgement(one.path) for one, judgement in zip(found, given, strict=True)]


def clashes(*paths: str, touching: bool = False, more: int = 0, repair: bool = False, asked: Asked = Asked()) -> list[ClashReport]:
    """The links of each document of some folders and files that contradict each other."""
    with run_over(paths, asked) as run:
        found = run.files.search()
        given = clash_reports(run, found, WantedOfClashes(touching=touching, more=more, repair=repair))
        return [report or ClashReport(Judgement(one.path)) for one, report in zip(found, given, strict=True)]


def agree(documents: str, keys: str, *, links: bool = False, touching: bool = False, asked: Asked = Asked()) -> Agreement:
    """How far the links of two annotations agree: of two folders, or of two files."""
    with run_over((documents, keys), asked) as run:
        sides = sides_of(documents, keys)
        pairs, corpus = find_pairs(sides, run.files.patterns), Corpus()
        reports = list(pair_reports(run, sides, pairs.found, Wanted(links, touching)))
        for one in reports:
            if one.scores is not None:
                corpus.add(one.scores)
        return Agreement(reports, pairs.not_counted, corpus)


def report(*paths: str, output: str, more: int = 0, asked: Asked = Asked()) -> Report:
    """Writes the pages about some folders and files to a folder: a new one, or that of an earlier report."""
    with run_over(paths, asked) as run:
        found, folder = run.files.search(), Folder(output)
        folder.prepare()
        wanted = WantedOfClashes(more=more, lint=chosen(run.settings.ignore, run.settings.warn), every_clash=False)
        files = [one.report for one in reported_files(run, folder, found, wanted)]
        folder.write_index(len(found))
        return Report(os.path.join(output, INDEX), files)
