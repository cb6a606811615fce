"""One question: the files that it is about, who answers it, and the statuses that mean the same of all commands."""

from __future__ import annotations

import os
from collections.abc import Sequence
from dataclasses import dataclass
from functools import cache
from typing import Any, Protocol

from .documents import Document
from .finding import find
from .misuse import UnknownName, is_a_document, not_a_file, not_an_answerer, unknown_interval, unknown_relation
from .process import Process
from .reading import TOO_LONG, events_of, read_accepted, read_fault, read_malformed, read_refused
from .replies import OF_KEY
from .results import Fault, Malformed, Refused, TooLong
from .running import CannotRun
from .statuses import DOCUMENT_LIMIT, EVIDENCE_LIMIT, TmlStatus

__all__ = ["Answerer", "File"]

File = bytes | bytearray | memoryview | str | os.PathLike[str] | Document
"""A document or another file: its bytes, the path at which it lies, or the model of a document."""

NOTHING_FOUND = (
    "neither the library libtml nor the program tml was found, so nothing can be asked. Install a package that has them; or say where one "
    "of them lies before the first question: os.environ['TML'] = '/path/to/tml', or os.environ['TML_LIBRARY'] = '/path/to/libtml.so'; or "
    "give each question by=tml.Process('/path/to/tml')"
)
"""What who asks from Python is told where there is nobody to answer."""

LIMITS = {
    "verify": (DOCUMENT_LIMIT, EVIDENCE_LIMIT), "confirm": (DOCUMENT_LIMIT, EVIDENCE_LIMIT), "score": (DOCUMENT_LIMIT, DOCUMENT_LIMIT),
    "renew": (EVIDENCE_LIMIT,), "join": (EVIDENCE_LIMIT, EVIDENCE_LIMIT),
}  # fmt: skip
"""How many bytes the files of a command may have, where it is not about one document alone."""

WORDS = {"X": 0, "REL": 1, "Y": -1}
"""Which argument of a question is meant by the word that names nothing."""


class Answerer(Protocol):
    """Who answers a command over files: a `Library` or a `Process`."""

    def answer(self, command: str, files: Sequence[bytes], arguments: Sequence[str] = ()) -> tuple[int, bytes]:
        """The status and the text."""


@cache
def default_answerer() -> Answerer:
    """The library if there is one, else the program."""
    found = find()
    library = found.library.load() if found.library is not None else None
    if library is None and found.program is None:
        raise CannotRun(NOTHING_FOUND)
    return library or Process(found.needed())


def content(file: File, limit: int) -> bytes:
    """The bytes of a file. Of one that is longer than its limit a byte more is read, so that it is answered as too long.

    What is neither bytes nor a path is a `TypeError`, also where `bytes` would make some of it, as of a number.
    """
    if isinstance(file, Document):
        return file.content
    if isinstance(file, (str, os.PathLike)):
        return content_at(file, limit)
    if not isinstance(file, (bytes, bytearray, memoryview)):
        raise not_a_file(file)
    return file if isinstance(file, bytes) else bytes(file)


def contents(files: Sequence[File], limits: Sequence[int]) -> tuple[bytes, ...]:
    """The bytes of the files of a question. A path that is given twice is read once, since a pipe has nothing for the second time."""
    paths = [os.fspath(file) for file in files if isinstance(file, (str, os.PathLike))]
    is_twice = len(paths) == 2 and (paths[0], limits[0]) == (paths[1], limits[1])
    read = tuple(content(file, limit) for file, limit in zip(files[: 1 if is_twice else 2], limits, strict=False))
    return read * 2 if is_twice else read


def content_at(path: str | os.PathLike[str], limit: int) -> bytes:
    """The bytes of the file at a path."""
    try:
        with open(path, "rb") as opened:
            return opened.read(limit + 1)
    except (OSError, ValueError):
        # A text that begins with a tag is nowhere a file: somebody gave a document as text.
        if isinstance(path, str) and path.lstrip("\ufeff \t\r\n").startswith("<"):
            raise is_a_document(path) from None
        raise


@dataclass(frozen=True)
class Answer:
    """A command over files, and what was answered."""

    command: str
    files: tuple[bytes, ...]
    by: Answerer
    status: TmlStatus
    text: bytes
    model: Document | None = None
    """The model of the first file, if it was given in its place."""

    def problem(self) -> Fault | TooLong | None:
        """Why there is no answer, where a document has a fault or a file is too long."""
        return self.too_long() if self.status == TmlStatus.TOO_LONG else self.fault()

    def too_long(self) -> TooLong | None:
        """Which file is too long, where one is."""
        if self.status != TmlStatus.TOO_LONG:
            return None
        name: Any = TOO_LONG[self.text.decode("ascii").removeprefix("too long ").rstrip("\n")]
        return TooLong(name)

    def fault(self) -> Fault | None:
        """The fault of a document, where one has any."""
        if self.status != TmlStatus.DOC_FAULT:
            return None
        if self.text.startswith(OF_KEY):
            return read_fault(self.text.removeprefix(OF_KEY), self.files[1], "key")
        return read_fault(self.text, self.files[0], "document")

    def malformed(self) -> Malformed | TooLong | None:
        """The bad line of evidence or of a text of seconds, or which file is too long."""
        if self.status != TmlStatus.EVIDENCE_FAULT:
            return self.too_long()
        return read_malformed(self.text, "seconds" if self.command == "confirm" else "evidence")

    def refusal(self) -> Malformed | Refused | Fault | TooLong | None:
        """Why evidence or a text of seconds is not right, where it is not, or cannot be looked at."""
        found = self.fault() if self.status == TmlStatus.DOC_FAULT else self.malformed()
        return read_refused(self.text) if found is None and self.status == TmlStatus.EVIDENCE_FAULT else found


def answer_to(by: Answerer | None, command: str, *files: File, arguments: Sequence[str] = ()) -> Answer:
    """Asks a question. Out of memory, and what can only be a wrong call, is raised."""
    if b"\0" in "".join(arguments).encode():
        raise ValueError("a word has a zero byte")
    if by is not None and not callable(getattr(by, "answer", None)):
        raise not_an_answerer(by)
    answerer = default_answerer() if by is None else by
    given = contents(files, LIMITS.get(command, (DOCUMENT_LIMIT,)))
    number, text = answerer.answer(command, given, arguments)
    status = TmlStatus(number)
    if status == TmlStatus.NO_MEMORY:
        raise MemoryError(f"tml {command} was out of memory")
    if status == TmlStatus.UNKNOWN_NAME:
        raise unknown_name(answerer, given[0], arguments, text.decode("ascii").split()[1])
    if status in (TmlStatus.USAGE, TmlStatus.READ_FAULT, TmlStatus.WRITE_FAULT):
        raise ValueError(f"tml has no answer to `{' '.join((command, *arguments))}`")
    model = files[0] if files and isinstance(files[0], Document) else None
    return Answer(command, given, answerer, status, text, model)


def unknown_name(answerer: Answerer, document: bytes, arguments: Sequence[str], word: str) -> UnknownName:
    """The exception for the word of a question that names nothing, with what may have been meant. The names are a second question."""
    name = arguments[WORDS[word]]
    if word == "REL":
        return unknown_relation(name)
    status, text = answerer.answer("check", (document,))
    intervals = read_accepted(text, document).intervals if status == TmlStatus.DONE else ()
    return unknown_interval(name, intervals, events_of(document).get(name, ()))
