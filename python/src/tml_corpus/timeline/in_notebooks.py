"""A timeline in a notebook, drawn as all pictures are: who answered the question is asked what is known of the document."""

from __future__ import annotations

from collections.abc import Callable, Iterable

from tml.asking import Answerer
from tml.lines import Ranks

from ..asking.program import Program, Reply, believed
from ..document.words import Wording
from ..figure import of_timeline
from ..figure.draw import SCREEN
from ..figure.svg_form import on_screen
from ..files.finding import counted
from .timeline import Choices, timeline_of


class Answering(Program):
    """Who answers a question of the package `tml`, asked as commands ask."""

    def __init__(self, by: Answerer) -> None:
        super().__init__("")
        self.by = by

    def ask(self, words: list[str], document: bytes, other: bytes | None = None) -> Reply:
        """The answer about a document alone."""
        assert other is None
        return believed(Reply(*self.by.answer(words[0], [document]), words[0], len(document)))

    def matrix_in_parts(self, document: bytes, take: Callable[[bytes], object]) -> int:
        """The status of `tml matrix` of a document, and its text as one part."""
        status, text = self.by.answer("matrix", [document])
        take(text)
        return status


def picture(content: bytes, ranks: Iterable[Ranks], by: Answerer) -> str:
    """The picture of a document that has a timeline of some ranks."""
    program = Answering(by)
    wording = Wording(program, content)
    timeline = timeline_of(program, counted(len(wording.intervals), "interval"), wording, list(ranks), Choices())
    return on_screen(of_timeline.figure_of(timeline, SCREEN.width, with_said=True)).text
