"""Answers of the wished class, and an exception for any other one."""

from __future__ import annotations

from typing import Any, TypeVar, overload

from .results import Fault, TooLong

__all__ = ["Unexpected", "expect"]

Wished = TypeVar("Wished")
OtherWished = TypeVar("OtherWished")

LONGEST = 400
"""How many characters of an answer a message has at most."""


class Unexpected(Exception):
    """An answer is not of the wished class. `answer` has it."""

    def __init__(self, answer: object, said: str) -> None:
        super().__init__(answer, said)
        self.answer, self.said = answer, said

    def __str__(self) -> str:
        return self.said


@overload
def expect(answer: Wished | Fault | TooLong) -> Wished:
    ...


@overload
def expect(answer: object, wished: type[Wished], /) -> Wished:
    ...


@overload
def expect(answer: object, wished: type[Wished], other: type[OtherWished], /) -> Wished | OtherWished:
    ...


def expect(answer: object, *wished: type[Any]) -> Any:
    """The answer, where it is of the wished class, or of one of two; else `Unexpected` is raised, which says what the answer is.

    Without a class any answer is returned that is about a document without a fault: only a `Fault` and a `TooLong` are raised.

        timeline = tml.expect(tml.solve("samples/rates.xml"), tml.Timeline)
    """
    if isinstance(answer, wished) if wished else not isinstance(answer, (Fault, TooLong)):
        return answer
    wanted = f"{' or '.join(one.__name__ for one in wished)} was expected, and the answer is " if wished else ""
    raise Unexpected(answer, f"{wanted}{type(answer).__name__}: {answer}"[:LONGEST] if answer is not None else f"{wanted}None")
