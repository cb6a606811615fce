"""Every kind of answer of the package `tml`: the classes that its public functions answer, and questions with such answers."""

from __future__ import annotations

import types
import typing
from collections.abc import Callable, Iterator, Sequence
from dataclasses import dataclass, replace
from functools import cache
from pathlib import Path
from typing import Any

import tml
from corpus import TML, TOO_LONG, TOP

NOT_OK = (
    "Clash", "Counterexample", "Cycle", "Fault", "KeyClash", "Malformed", "NotAnswered", "Refused", "TooLong"
)  # fmt: skip
"""The answers that say no."""

RATES = Path(TOP, "samples", "rates.xml")
FITS = RATES.read_bytes()
CLASHES = FITS.replace(b"</TimeML>", b'<TLINK lid="l3" eventInstanceID="ei2" relatedToEventInstance="ei1" relType="BEFORE"/></TimeML>')
FAULTY = FITS.replace(b'"OCCURRENCE"', b'"OCCURENCE"')
NEVER = FITS.replace(
    b"</TimeML>",
    b'<TIMEX3 tid="p" type="DURATION" value="P1D"/><TLINK timeID="p" relatedToTime="t1" relType="IS_INCLUDED"/></TimeML>',
)
"""A document that a timeline fits, and no placing in seconds: a day lies within a day."""


class Remembering(tml.Process):
    """The program, which is asked each question once by all tests of a process."""

    replies: dict[object, tuple[int, bytes]] = {}

    def answer(self, command: str, files: Sequence[bytes], arguments: Sequence[str] = ()) -> tuple[int, bytes]:
        question = (command, *files, *arguments)
        if question not in self.replies:
            self.replies[question] = super().answer(command, files, arguments)
        return self.replies[question]


BY = Remembering(TML)


@dataclass(frozen=True)
class Files:
    """What a question may be about: a document, a key, evidence of the document, further evidence, and seconds of it."""

    document: tml.File
    key: tml.File
    evidence: tml.File
    further: tml.File
    seconds: tml.File


Question = Callable[[Files, tml.Answerer], Any]

LINKS = [("ei1", "BEFORE", "ei2"), ("ei2", "BEFORE", "ei1")]

QUESTIONS: tuple[tuple[str, Question], ...] = (
    ("ask", lambda files, by: tml.ask(files.document, "ei1", "BEFORE", "ei2", by)),
    ("ask", lambda files, by: tml.ask(files.document, "ei1", "AFTER", "ei2", by)),
    ("canon", lambda files, by: tml.canon(files.document, by)),
    ("check", lambda files, by: tml.check(files.document, by)),
    ("clash", lambda files, by: tml.clash(files.document, by)),
    ("clashes", lambda files, by: tml.clashes(files.document, by=by)),
    ("confirm", lambda files, by: tml.confirm(files.document, files.seconds, by)),
    ("consistent", lambda files, by: tml.consistent(files.document, LINKS, [0.9, 0.3], by)),
    ("dates", lambda files, by: tml.dates(files.document, by)),
    ("join", lambda files, by: tml.join(files.evidence, files.further, by)),
    ("matrix", lambda files, by: tml.matrix(files.document, by)),
    ("possible", lambda files, by: tml.possible(files.document, "ei1", "t1", by)),
    ("read", lambda files, by: tml.read(files.document, by)),
    ("reduce", lambda files, by: tml.reduce(files.document, by)),
    ("relations", lambda files, by: tml.relations(files.document, by)),
    ("renew", lambda files, by: tml.renew(files.evidence, by)),
    ("score", lambda files, by: tml.score(files.document, files.key, by)),
    ("seconds", lambda files, by: tml.seconds(files.document, by)),
    ("solve", lambda files, by: tml.solve(files.document, by)),
    ("spans", lambda files, by: tml.spans(files.document, by)),
    ("timeline", lambda files, by: tml.timeline(files.document, by)),
    ("verify", lambda files, by: tml.verify(files.document, files.evidence, by)),
    ("with_links", lambda files, by: tml.with_links(files.document, LINKS[:1], by)),
)
"""A question for each public function that takes a file; of `ask` two, of which one has a proof."""


@cache
def right_files() -> Files:
    """A document with a key, and evidence and seconds that are right for it."""
    evidence = tml.expect(tml.solve(FITS, BY), tml.Timeline).evidence
    return Files(FITS, CLASHES, evidence, evidence, tml.expect(tml.seconds(FITS, BY), tml.Placing).text)


def file_sets() -> Iterator[Files]:
    """Files about which each kind of answer is given."""
    right = right_files()
    assert isinstance(right.evidence, bytes) and isinstance(right.seconds, bytes)
    yield right
    yield replace(right, key=FITS, evidence=right.evidence.replace(b"at 0 1", b"at 6 7"), seconds=b"")
    yield replace(right, key=FAULTY, evidence=b"")
    for document in (CLASHES, FAULTY, NEVER):
        yield replace(right, document=document)


def every_answer() -> Iterator[tuple[str, Any]]:
    """What is answered about these files, each with the name of the function; and further ones."""
    for files in file_sets():
        for name, question in QUESTIONS:
            yield name, question(files, BY)
    yield "drill", tml.drill(2, BY)
    yield "check", tml.check(TOO_LONG, BY)
    yield from (("folder", one.answer) for one in tml.folder(["no such file"], jobs=1))


def answers_in(hint: Any) -> Iterator[type]:
    """The classes of the package in an annotation. What stands in a list or a dictionary is part of an answer, and none by itself."""
    origin = typing.get_origin(hint) or hint
    if origin in (typing.Union, types.UnionType):
        parts = typing.get_args(hint)
    elif isinstance(origin, type) and issubclass(origin, Iterator):
        parts = typing.get_args(hint)
    elif isinstance(origin, type) and issubclass(origin, tuple) and origin.__module__.startswith("tml."):
        parts = tuple(typing.get_type_hints(origin).values())
    else:
        parts = ()
        if isinstance(origin, type) and origin.__module__.startswith("tml."):
            yield origin
    for part in parts:
        yield from answers_in(part)


def public_functions() -> dict[str, Callable[..., Any]]:
    """The public functions by their names."""
    names: list[str] = getattr(tml, "__all__")
    found = {name: getattr(tml, name) for name in names}
    return {name: one for name, one in found.items() if isinstance(one, types.FunctionType)}


def answer_classes() -> set[type]:
    """The classes that public functions answer, by their annotations."""
    return {one for function in public_functions().values() for one in answers_in(typing.get_type_hints(function)["return"])}


def functions_of_files() -> set[str]:
    """The public functions with an argument that is a file."""
    hints = {name: typing.get_type_hints(function) for name, function in public_functions().items()}
    return {name for name, types_of in hints.items() if tml.File in [one for key, one in types_of.items() if key != "return"]}
