"""Many documents, asked about one after another by processes of their own, each of which has the library."""

from __future__ import annotations

import os
from collections import deque
from collections.abc import Callable, Iterable, Iterator, Sequence
from dataclasses import dataclass, field
from functools import partial
from typing import TYPE_CHECKING, Any, Generic, NamedTuple, TypeVar, overload

from .attempts import cause
from .documents import Document
from .questions import read
from .results import NOT_SHOWN, Fault, Negative, TooLong
from .running import processors
from .workers import Lost, Workers, answer_about, sendable

if TYPE_CHECKING:
    from concurrent.futures import Future

__all__ = ["Answered", "NotAnswered", "folder"]

PATTERNS = (".tml", ".xml")
"""How the names of documents end that are looked for in folders."""

AHEAD = 4
"""How many documents for each process are asked about before their answers are taken."""

Path = str | os.PathLike[str]
Paths = Path | Iterable[Path]
"""A file or a folder, or several of them."""

Pairs = Iterable[tuple[Path, Path]]
"""Pairs of files, as of documents and keys."""

Given = TypeVar("Given")

Found = tuple[tuple[str, ...], Lost | None]
"""A file or a pair of files; or a folder, and why nothing is asked about it."""


@dataclass(frozen=True)
class NotAnswered(Negative):
    """Why there is no answer about a file: it cannot be read, the question raised something, or the process that was asked ended.

    Of a folder it says that nothing was found there, or that it cannot be read.
    """

    reason: str
    error: Exception | None = field(default=None, repr=False, compare=False, metadata=NOT_SHOWN)
    """What was raised. There is none if nothing was raised, or if it cannot be sent from one process to another."""

    def __str__(self) -> str:
        return self.reason


class Answered(NamedTuple, Generic[Given]):
    """A file, or the first one of a pair, and what was answered about it."""

    path: str
    answer: Given | NotAnswered


@overload
def folder(paths: Paths, *, jobs: int | None = None) -> Iterator[Answered[Document | Fault | TooLong]]:
    ...


@overload
def folder(paths: Paths, question: Callable[[str], Given], jobs: int | None = None) -> Iterator[Answered[Given]]:
    ...


@overload
def folder(paths: Pairs, question: Callable[[str, str], Given], jobs: int | None = None) -> Iterator[Answered[Given]]:
    ...


def folder(paths: Paths | Pairs, question: Callable[..., Any] = read, jobs: int | None = None) -> Iterator[Answered[Any]]:
    """The answers to a question about each of many documents, one after another, in the order of the paths.

    A path is a file, or a folder that is searched for names that end in `.tml` or `.xml`, in any case of letters and in the order of the
    names. The question takes a path: a function of this package, or one of a module that can be imported, with `functools.partial` where it
    takes more; by default it is `read`. A tuple of two paths is a pair, and the question takes both: `folder(zip(documents, keys), score)`.
    The question is asked in as many processes at once as there are processors, or as `jobs` says; with `jobs=1` in this process, and then
    it may be any function.

    If a file cannot be read, or takes its process along, or the question raises anything about it, the answer is a `NotAnswered` with
    the cause, and the others go on.

        tml.folder("samples", tml.check, jobs=2)
    """
    if jobs is not None and jobs < 1:
        raise ValueError(f"jobs is how many processes are asked, 1 or more, and not {jobs}")
    found = files_of(paths)
    count = jobs or processors()
    if count == 1:
        return (answered(files, answer_about(question, files) if unread is None else unread) for files, unread in found)
    return asked_of_workers(found, sendable(question), count)


def answered(files: Sequence[str], answer: Any) -> Answered[Any]:
    """A file with its answer."""
    return Answered(files[0], NotAnswered(*answer) if isinstance(answer, Lost) else answer)


def files_of(paths: Paths | Pairs) -> Iterator[Found]:
    """The files that paths stand for."""
    if isinstance(paths, (bytes, bytearray)):
        raise TypeError("the paths of documents are text or pathlib.Path, and not bytes")
    for path in [paths] if isinstance(paths, (str, os.PathLike)) else paths:
        places = tuple(os.fspath(one) for one in (path if isinstance(path, tuple) else (path,)))
        if len(places) == 1 and os.path.isdir(places[0]):
            yield from files_in(places[0])
        else:
            yield places, None


def files_in(top: str) -> Iterator[Found]:
    """The documents below a folder, and the folders in it that cannot be read. Folders that are symbolic links are not entered, and what
    is neither a file nor missing, as a pipe, is passed over."""
    unread: list[OSError] = []
    is_empty = True
    for place, folders, names in os.walk(top, onerror=unread.append):
        folders.sort()
        for path in (os.path.join(place, name) for name in sorted(names) if name.lower().endswith(PATTERNS)):
            if os.path.isfile(path) or not os.path.exists(path):
                is_empty = False
                yield (path,), None
    yield from (((str(error.filename),), Lost(cause(error), error)) for error in unread)
    if is_empty and not unread:
        yield (top,), Lost(f"no name in this folder ends in {' or '.join(PATTERNS)}")


def asked_of_workers(found: Iterable[Found], question: bytes, count: int) -> Iterator[Answered[Any]]:
    """The answers of some processes, in the order of the paths. Where nobody takes them, no more is asked."""
    from concurrent.futures import ThreadPoolExecutor

    waiting: deque[tuple[tuple[str, ...], Future[Any]]] = deque()
    with Workers(question) as workers, ThreadPoolExecutor(count) as threads:
        try:
            for files, unread in found:
                waiting.append((files, threads.submit(partial(workers.ask, files) if unread is None else partial(Lost, *unread))))
                while len(waiting) >= AHEAD * count:
                    yield taken(waiting)
            while waiting:
                yield taken(waiting)
        finally:
            for _, future in waiting:
                future.cancel()


def taken(waiting: deque[tuple[tuple[str, ...], Future[Any]]]) -> Answered[Any]:
    """The first answer of those that are waited for."""
    files, future = waiting.popleft()
    return answered(files, future.result())
