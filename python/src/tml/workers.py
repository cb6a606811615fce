"""Processes that answer a question about one file after another. Each begins anew, and knows the question alone."""

from __future__ import annotations

import io
import os
import pickle
import sys
import threading
from collections.abc import Callable, Sequence
from contextlib import suppress
from types import FunctionType, MethodDescriptorType, TracebackType
from typing import IO, TYPE_CHECKING, Any, NamedTuple

from .attempts import cause

if TYPE_CHECKING:
    import subprocess

BEGIN = f"import sys; sys.path[:] = sys.argv[1:]; from {__name__} import answer_all; answer_all()"
ENDED = "the process that was asked about it ended"


class Lost(NamedTuple):
    """Why files have no answer, and what was raised, as far as that can be sent."""

    reason: str
    error: Exception | None = None


class NotSendable(TypeError):
    """Another process cannot be asked a question."""

    def __init__(self, reason: str = "") -> None:
        super().__init__(
            "another process can only be asked a function of a module that it can import, and not one of a notebook, of the program that "
            f"runs, or a lambda: ask for tml.read and go on with its answers, or say jobs=1{reason and f' ({reason})'}"
        )


class Pickler(pickle.Pickler):
    """Writes what goes from process to process. What the program that runs has of its own is not there in another one."""

    def reducer_override(self, thing: Any) -> Any:
        """How functions, classes and errors are written, other than as usual."""
        if isinstance(thing, (FunctionType, type)) and thing.__module__ == "__main__":
            raise NotSendable
        if isinstance(thing, BaseException) and isinstance(type(thing).__reduce__, MethodDescriptorType):
            return rebuilt, (type(thing), *thing.__reduce__()[1:])
        return NotImplemented


def rebuilt(kind: type[BaseException], given: Sequence[Any], state: dict[str, Any] | None = None) -> BaseException:
    """An error as it was. Its own `__init__` is passed by, since it may take other arguments than those that Python keeps."""
    base: Any = next(one for one in kind.__mro__ if one.__module__ == "builtins")
    error: BaseException = base.__new__(kind, *given)
    base.__init__(error, *given)
    error.__setstate__(state)
    return error


def written(thing: object) -> bytes:
    """The bytes of something that goes to another process."""
    text = io.BytesIO()
    Pickler(text).dump(thing)
    return text.getvalue()


def sendable(question: Callable[..., Any]) -> bytes:
    """The question as it is sent, if another process can be asked it."""
    try:
        return written(question)
    except (pickle.PicklingError, AttributeError, TypeError, ValueError):
        raise NotSendable from None


class Workers:
    """The processes, one for each thread that asks."""

    def __init__(self, question: bytes) -> None:
        self.question, self.own = question, threading.local()
        self.running: list[subprocess.Popen[bytes]] = []

    def __enter__(self) -> Workers:
        return self

    def __exit__(self, kind: type[BaseException] | None, error: BaseException | None, trace: TracebackType | None) -> None:
        for one in self.running:
            end(one)

    def started(self) -> subprocess.Popen[bytes]:
        """A new process, which is told the question and the places of modules. It may not be able to read the question."""
        import subprocess

        words = [sys.executable, "-c", BEGIN, *sys.path]
        child = subprocess.Popen(words, stdin=subprocess.PIPE, stdout=subprocess.PIPE, start_new_session=True)
        self.running.append(child)
        send(child.stdin, self.question)
        if (problem := taken(child.stdout)) is not None:
            raise NotSendable(problem)
        return child

    def ask(self, files: Sequence[str]) -> Any:
        """The answer of the process of this thread; `Lost` if the question raised something, or the process ended."""
        child = getattr(self.own, "child", None)
        try:
            if child is None:
                child = self.own.child = self.started()
            send(child.stdin, written(files))
            return taken(child.stdout)
        except NotSendable:
            raise
        except Exception as error:
            # What is left of an answer that cannot be read would be taken for the next one.
            self.own.child = None
            if child is not None:
                end(child)
                self.running.remove(child)
            return Lost(ENDED if isinstance(error, (OSError, EOFError, pickle.UnpicklingError)) else cause(error))


def send(stream: IO[bytes] | None, text: bytes) -> None:
    """Writes something to the other side."""
    assert stream is not None
    stream.write(text)
    stream.flush()


def taken(stream: IO[bytes] | None) -> Any:
    """Reads what the other side wrote."""
    assert stream is not None
    return pickle.load(stream)


def end(child: subprocess.Popen[bytes]) -> None:
    """Ends a process that has nothing more to do."""
    with suppress(OSError):
        child.kill()
    for stream in (child.stdin, child.stdout):
        if stream is not None:
            with suppress(OSError):
                stream.close()
    child.wait()


def answer_all() -> None:
    """What such a process does: it reads the question, says what keeps it from that, and then answers about files."""
    given, taken = sys.stdin.buffer, os.fdopen(os.dup(1), "wb")
    # What the question prints is not part of the answers.
    os.dup2(2, 1)
    question = answer_about(pickle.load, [given])
    with suppress(EOFError, BrokenPipeError):
        send(taken, written(question.reason if isinstance(question, Lost) else None))
        while not isinstance(question, Lost):
            send(taken, answer_of(question, pickle.load(given)))


def answer_about(question: Callable[..., Any], given: Sequence[Any]) -> Any:
    """The answer about a file or a pair of files, or why there is none."""
    try:
        return question(*given)
    except Exception as error:
        return Lost(cause(error), error)


def answer_of(question: Callable[..., Any], files: Sequence[str]) -> bytes:
    """The same as it is sent. An error that cannot be sent, or read again, leaves its reason."""
    answer = answer_about(question, files)
    try:
        text = written(answer)
        if isinstance(answer, Lost):
            pickle.loads(text)
        return text
    except Exception as error:
        return written(Lost(answer.reason if isinstance(answer, Lost) else cause(error)))
