"""The program `tml`: where it lies, and one question to it, or to its library where that was loaded."""

from __future__ import annotations

import io
from collections.abc import Callable, Iterator
from typing import IO, TYPE_CHECKING, NamedTuple

from tml.finding import Loadable
from tml.running import CannotRun, run
from tml.statuses import DOCUMENT_LIMIT, TmlStatus

from ..command_line.statuses import MEANINGS

if TYPE_CHECKING:
    from tml.library import Library

__all__ = ["ACCEPTED", "CLASH", "DOCUMENT_LIMIT", "FAULT", "MEANINGS", "CannotRun", "Program", "Reply"]

ACCEPTED, FAULT, CLASH = TmlStatus.DONE, TmlStatus.DOC_FAULT, TmlStatus.CLASH

CROSSING = {command: f"{command}\0first\0".encode() for command in ("check", "spans", "dates", "solve", "relations", "reduce", "seconds")}
CROSSING |= {command: f"{command}\0first\0second\0".encode() for command in ("verify", "confirm", "score")}
"""The words of questions as they cross to the library."""

BELIEVED, NEVER = {"check": b"accepted\n"}, b"\0"
"""How a text with status 0 begins that is believed of the library without a look at the rest. Of a document of 4 KiB that look takes 25
microseconds, and `check` itself 55; that at a text of `solve` takes two. Nothing is lost by it: no more of this text is used, and a library
that is a wrong one could do anything in this process."""


class Reply(NamedTuple):
    """What `tml` answered: its status and its text; with the command, and the number of bytes of the document where it is known."""

    status: int
    text: bytes
    command: str = "check"
    size: int | None = None

    def lines(self) -> Iterator[list[str]]:
        """The lines of the text one by one, cut into words; names may hold any bytes and are kept by surrogates."""
        for line in io.BytesIO(self.text):
            yield line.rstrip(b"\n").decode("utf-8", "surrogateescape").split(" ")

    def problem(self) -> str:
        """Why a reply is not a judgement."""
        known = MEANINGS.get(self.status)  # type: ignore[call-overload]
        return known or f"tml answered status {self.status}, which `{self.command}` should not"


class Program:
    """One `tml`, to be asked from several threads at once: a process for each question, or its library once that is loaded."""

    def __init__(self, path: str, library: Loadable | None = None) -> None:
        self.path, self.library = path, library
        self.loaded: Library | None = None
        self.dates: dict[tuple[str, str, str], list[str]] = {}
        """What it answered on times, by their type, modifier and value."""

    def load(self) -> None:
        """Loads the library into this process, where there is one."""
        if self.library is not None:
            self.loaded = self.library.load()

    def seen(self, document: bytes) -> bytes:
        """The document as `tml` is asked about it; all places are the same in it."""
        return document

    def ask(self, words: list[str], document: bytes, other: bytes | None = None) -> Reply:
        """Asks `tml` with the words about a document, and about another file if there is one.

        No names of files are words of `tml`, which takes none that is not UTF-8. A reply that is not believed is raised as a problem.
        """
        if self.loaded is not None:
            return ask_library(self.loaded, words[0], document, other)
        from tml.process import Process

        status, text = Process(self.path).answer(words[0], (document,) if other is None else (document, other), words[2:])
        return Reply(status, text, words[0], len(document))

    def matrix_in_parts(self, document: bytes, take: Callable[[bytes], object]) -> int:
        """The status of `tml matrix` of a document in memory, whose text something takes in parts, as they come."""
        from tml.longest import longest

        status, _ = run([self.path, "matrix", "-"], self.seen(document), longest("matrix"), take=take)
        return status

    def matrix(self, document: bytes, lines: IO[bytes]) -> Reply:
        """`tml matrix` of a document in memory: the lines, which may be many, go to an open file.

        It is always a process that is asked: there may be 64 MiB of lines, which the library would have in memory, and a process of them a
        part at a time. With another status than 0 the reply has the text.
        """
        status = self.matrix_in_parts(document, lines.write)
        lines.seek(0)
        if status == TmlStatus.DONE:
            return Reply(status, b"", "matrix", len(document))
        return believed(Reply(status, lines.read(), "matrix", len(document)))

    def score(self, document: bytes, key: bytes) -> Reply:
        """`tml score` of two documents in memory."""
        return self.ask(["score", "-"], document, self.seen(key))

    def check(self, document: bytes) -> Reply:
        """`tml check` of a document in memory."""
        return self.ask(["check", "-"], document)

    def spans(self, document: bytes) -> Reply:
        """`tml spans` of a document in memory."""
        return self.ask(["spans", "-"], document)


def ask_library(library: Library, command: str, document: bytes, other: bytes | None) -> Reply:
    """What the library answers to a command about a document, and about another file where there is one."""
    try:
        status, text = library.call(CROSSING[command], document, other or b"")
    except MemoryError:
        status, text = TmlStatus.NO_MEMORY, b""
    reply = Reply(status, text, command, len(document))
    return reply if status == TmlStatus.DONE and text.startswith(BELIEVED.get(command, NEVER)) else believed(reply)


def believed(reply: Reply) -> Reply:
    """A reply that is believed. Another one is raised as a problem."""
    from tml.replies import refusal

    problem = refusal([reply.command], reply.status, reply.text, reply.size)
    if problem is not None:
        raise CannotRun(problem)
    return reply
