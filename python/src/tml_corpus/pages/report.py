"""`tml-corpus report`: a folder of pages about a corpus, which open from the disk.

The pages of documents are written where the documents are looked at, by all processors; the index is written last.
"""

from __future__ import annotations

import os
from collections.abc import Iterator, Sequence
from dataclasses import dataclass, field
from functools import partial
from typing import TYPE_CHECKING

from tml.attempts import attempted

from ..asking.program import CannotRun, Program
from ..clash.clashes import own_name
from ..clash.report import ClashReport, Wanted
from ..files.finding import Found, reason, shown
from ..files.replacing import make_folder, replace_file
from .documents import Entry, entry_of, examine, not_examined
from .index import FOR_BROWSERS, index_of
from .page import page_of
from .script import DOCUMENT_SCRIPT, INDEX_SCRIPT
from .style import STYLE

if TYPE_CHECKING:
    from ..command_line.run import Run

INDEX = "index.html"
SHARED = {"report.css": STYLE, "index.js": INDEX_SCRIPT, "document.js": DOCUMENT_SCRIPT}
"""The files that the pages share. A folder that has them is one of a report."""

DOCUMENTS = "documents"


@dataclass(frozen=True)
class Reported:
    """What became of one file, and its line in the index."""

    report: ClashReport
    entry: Entry


@dataclass
class Folder:
    """The folder of a report as it is made."""

    path: str
    entries: list[Entry] = field(default_factory=list)

    def prepare(self) -> None:
        """Makes the folder, and writes what the pages share. One that has other files is refused, so that none of these is lost."""
        make_folder(self.path)
        try:
            names = {*os.listdir(self.path)} - {FOR_BROWSERS}
        except OSError as error:
            raise CannotRun(f"the folder {self.path} cannot be read: {reason(error)}") from None
        if names and not names >= set(SHARED):
            raise CannotRun(f"{self.path} has files that are not part of a report: name a new folder, or that of an earlier report")
        for name, text in SHARED.items():
            write_page(self.path, name, text)
        make_folder(os.path.join(self.path, DOCUMENTS))

    def write_index(self, expected: int) -> None:
        """Writes the index of the documents that were looked at."""
        write_page(self.path, INDEX, index_of(self.entries, expected, os.path.isfile(os.path.join(self.path, FOR_BROWSERS))))

    def last_line(self) -> str:
        """Where the report is."""
        return f"report in {shown(os.path.join(self.path, INDEX))}\n"


def write_page(folder: str, name: str, text: str) -> None:
    """Writes one file of a folder."""
    replace_file(os.path.join(folder, name), text.encode("utf-8", "replace"), top=folder)


def reported_files(run: Run, folder: Folder, found: Sequence[Found], wanted: Wanted) -> Iterator[Reported]:
    """Writes the pages of some files, and answers in their order what became of each; the lines of the index are kept with the folder."""
    for one in run.each(partial(report_file, run.program, folder.path, wanted=wanted), found, without_page):
        folder.entries.append(one.entry)
        yield one


def report_file(program: Program, folder: str, found: Found, wanted: Wanted) -> Reported:
    """Looks at one file and writes its page."""
    examined = attempted(partial(examine, program, wanted=wanted), found, not_examined)
    name = own_name(found.path, "html")
    write_page(folder, os.path.join(DOCUMENTS, name), page_of(examined))
    return Reported(examined.report, entry_of(examined, name))


def without_page(found: Found, problem: str) -> Reported:
    """What there is of a file with which something went wrong, so that it has no page."""
    examined = not_examined(found, problem)
    return Reported(examined.report, entry_of(examined, None))
