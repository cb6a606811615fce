"""Names the TLINKs of each document of a corpus that `tml reduce` leaves out, in the words of the text.

Each of them follows from the links that are kept and the dates of the document, so that all of them can be left out together. Links
are looked at from the first to the last, so of two that say the same the first one is named.

Example: tools/redundant-links samples

Status 0 says that no link follows, 1 that some link does, 2 that some document was skipped, as where it has a
fault or its links contradict each other, and 130 that the run was interrupted.
"""

from __future__ import annotations

from collections.abc import Sequence
from dataclasses import dataclass, field
from functools import partial

from ..asking.pool import Interruption
from ..asking.program import Program
from ..asking.room import document_of
from ..check.formats import located
from ..command_line.main import Words, prepared, settings_of
from ..command_line.output import ProgramParser, RawFormatter, run
from ..command_line.parser import corpus_words
from ..command_line.run import print_each
from ..command_line.statuses import Status
from ..document.reduced import problem_of, read_reduced
from ..document.words import Wording
from ..files.finding import Found, counted, shown


@dataclass
class Report:
    """What became of one file: how many links it has, a line for each that follows, or why it could not be asked about."""

    path: str
    links: int = 0
    follows: list[str] = field(default_factory=list)
    problem: str | None = None

    def text(self) -> str:
        """The report in lines."""
        lines = [f"{shown(self.path)}: skipped: {shown(self.problem)}"] if self.problem else self.follows
        return "".join(line + "\n" for line in lines)


def ask_of_all(words: list[str]) -> int:
    """Asks about all files and answers the status."""
    options = parser().parse_args(words, Words(command="redundant-links", library=None, jobs=None))
    links = follows = problems = 0

    def reported(_: Found, report: Report) -> str:
        nonlocal links, follows, problems
        text = report.text()
        links, follows, problems = links + report.links, follows + len(report.follows), problems + (report.problem is not None)
        return text

    with Interruption() as stop, prepared(options, settings_of(options), stop) as made:
        found = made.files.search()
        print_each(found, made.each(partial(look, made.program), found, skipped), reported, skipped)
        files = f"{counted(len(found), 'file')}, {problems} skipped"
        print(f"{files}; links that follow from those that are kept: {follows} of {links}")
        if made.is_interrupted():
            print("interrupted: not all files were looked at")
            return Status.INTERRUPTED
    return Status.TROUBLE if problems else Status.FINDING if follows else Status.SUCCESS


def parser() -> ProgramParser:
    """The words that are understood."""
    words = ProgramParser(description=__doc__, formatter_class=RawFormatter)
    corpus_words(words)
    return words


def look(program: Program, found: Found) -> Report:
    """What `tml reduce` leaves out of one file."""
    with document_of(found) as document:
        return report_of(program, found.path, document)


def skipped(found: Found, problem: str) -> Report:
    """The report on a file with which something went wrong."""
    return Report(found.path, problem=problem)


def report_of(program: Program, path: str, document: bytes) -> Report:
    """The same of a document in memory."""
    reply = program.ask(["reduce", "-"], document)
    problem = problem_of(reply, document, reply.text)
    if problem is not None:
        return Report(path, problem=problem)
    wording = Wording(program, document)
    reduced = read_reduced(reply, wording)
    follows = [f"{located(path, link.place)}: follows: {shown(wording.in_words(link))}" for link in reduced.following]
    return Report(path, len(wording.link_tags), follows)


def main(words: Sequence[str] | None = None) -> int:
    """Runs the program and answers its status."""
    return run(ask_of_all, words)
