"""Asks the library `libtml` what the program is asked. It works in a process of its own, since a library that crashes takes that along.

A case names files of a machine, and the library has two in memory, by the names `first` and `second`. Which words name files is said
by their form, since an interval may be called as a file is.
"""

from __future__ import annotations

import os
import subprocess
import sys
from contextlib import AbstractContextManager, suppress
from dataclasses import dataclass
from multiprocessing import Pipe
from pathlib import Path
from types import TracebackType

from differential.cases import STANDARD_INPUT, Case, Output
from differential.programs import SECONDS
from differential.rows import is_word
from reference import Outcome
from tml.finding import BUILT_LIBRARY, LIBRARY_VARIABLE
from tml.library import FILES
from tml.running import CannotRun

PACKAGES = os.pathsep.join(path for path in sys.path if path)
"""Where the packages of this process lie, for another process."""
NAMES = tuple(name.encode() for name in FILES)
NO_FILE = b"none"
"""The name of a file that is not there and that is called as one of the library's."""
AT_THE_END = 10
"""How many seconds a process has to end that has nothing more to do."""
SHOWN = 200


def library_path() -> str | None:
    """The library: the one that the variable TML_LIBRARY names, none where that is empty, or the one that was built."""
    named = os.environ.get(LIBRARY_VARIABLE)
    if named is not None:
        return named or None
    return BUILT_LIBRARY if os.path.isfile(BUILT_LIBRARY) else None


def obstacle(case: Case) -> str | None:
    """Why the library cannot be asked a case, or None where it can. A folder and a closed input are files that are not there."""
    if case.memory is not None:
        return "devices in memory"
    if case.real is not None and case.real.output != Output.PIPE:
        return "an output that fails"
    if any(b"\0" in word for word in case.words):
        return "a zero byte in a word"
    return None


@dataclass(frozen=True)
class Question:
    """What crosses to the library: words, each ended by a zero byte, and what its two files hold."""

    words: bytes
    first: bytes = b""
    second: bytes = b""


def question_of(case: Case) -> Question:
    """The question to the library that a case is. Words that are not UTF-8 have no form, so none of them names a file."""
    names = case.readings() if all(map(is_word, case.words)) else []
    if not case.words and names[0] not in case.files:
        return Question(b"")
    called: dict[bytes, bytes] = {}
    held: list[bytes] = []
    files = []
    for name in names:
        if name not in case.files:
            files.append(NO_FILE if name in NAMES else name)
            continue
        is_read = name in called
        if not is_read or name == STANDARD_INPUT:
            called[name] = NAMES[len(held)]
            held.append(b"" if is_read else case.files[name])
        files.append(called[name])
    words = (*(case.words[:1] or (b"spans",)), *files, *case.words[1 + len(names) :])
    return Question(b"".join(word + b"\0" for word in words), *held)


class Libraries(AbstractContextManager["Libraries"]):
    """Asks a library one case after another. Where its process ends or takes too long, a new one is started for the next case."""

    asked = "library"

    def __init__(self, path: str, seconds: float = SECONDS) -> None:
        self.path, self.seconds = path, seconds
        self.child: subprocess.Popen[bytes] | None = None
        self.start()

    def __exit__(self, kind: type[BaseException] | None, error: BaseException | None, trace: TracebackType | None) -> None:
        self.end()

    def start(self) -> None:
        """Starts the process, in which the library is loaded. In a session of its own it is not ended by Ctrl-C."""
        self.connection, theirs = Pipe()
        environment = {**os.environ, "PYTHONPATH": PACKAGES}
        with theirs:
            self.child = subprocess.Popen(self.command(), stdin=theirs.fileno(), env=environment, start_new_session=True)
        problem = self.received(max(self.seconds, SECONDS)).decode()
        if problem:
            self.end()
            raise CannotRun(problem)

    def command(self) -> list[str]:
        """What answers over its standard input."""
        return [sys.executable, "-P", "-m", "differential.answering", self.path]

    def received(self, seconds: float) -> bytes:
        """The next message of the process. One that ends, or that takes too long and so is ended, sends none."""
        try:
            if self.connection.poll(seconds):
                return self.connection.recv_bytes()
        except (EOFError, OSError):
            raise CannotRun(self.end()) from None
        self.end(kill=True)
        raise CannotRun(f"The {self.asked} took longer than {seconds:.0f} seconds.")

    def end(self, kill: bool = False) -> str:
        """Ends the process, and says in a sentence how it ended."""
        child, self.child = self.child, None
        if child is None:
            return f"The process of the {self.asked} has ended."
        self.connection.close()
        try:
            status = child.wait(0 if kill else AT_THE_END)
        except subprocess.TimeoutExpired:
            child.kill()
            status = child.wait()
        how = f"was ended by signal {-status}" if status < 0 else f"ended with status {status}"
        return f"The process of the {self.asked} {how}."

    def outcome(self, case: Case) -> Outcome:
        """What the library answers to a case that it can be asked."""
        question = question_of(case)
        if self.child is None:
            self.start()
        with suppress(OSError):
            # One that has ended meanwhile has sent nothing either.
            for part in (question.words, question.first, question.second):
                self.connection.send_bytes(part)
        answered = self.received(self.seconds)
        return Outcome(answered[0], answered[1:])

    def complaint(self, case: Case, outcome: Outcome) -> str | None:
        """What is wrong with the answer of the library to a case that the program gives this outcome."""
        try:
            answered = self.outcome(case)
        except CannotRun as error:
            return str(error)
        if answered == outcome:
            return None
        return f"The {self.asked} answers {answered.status} {shown(answered.text, outcome.text)}."


class Modules(Libraries):
    """The same for the module for browsers in a folder, which Node asks."""

    asked = "module"

    def command(self) -> list[str]:
        return ["node", str(Path(__file__).with_name("answering.mjs")), self.path]


def shown(text: bytes, other: bytes) -> str:
    """A text that is told from another one; where it is long, from the first byte on in which they differ."""
    if len(text) <= SHOWN:
        return repr(text)
    place = len(os.path.commonprefix((text, other)))
    return f"{text[place : place + SHOWN]!r} from byte {place} of {len(text)} on"
