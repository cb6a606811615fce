"""Which keystrokes leave only whole tags and comments between two places, by an automaton that reads what is around them once."""

from __future__ import annotations

import re
from collections.abc import Iterator
from enum import IntEnum, auto
from functools import lru_cache, reduce
from typing import NamedTuple

from .draft import NAME
from .keyboard import Keystrokes


class State(IntEnum):
    """What a reader of markup is in."""

    TEXT = 0
    LESS = auto()
    END = auto()
    END_NAME = auto()
    END_SPACE = auto()
    NAME = auto()
    SPACE = auto()
    ATTRIBUTE = auto()
    ATTRIBUTE_SPACE = auto()
    EQUALS = auto()
    DOUBLE = auto()
    SINGLE = auto()
    VALUE = auto()
    SLASH = auto()
    BANG = auto()
    BANG_DASH = auto()
    COMMENT = auto()
    DASH = auto()
    DASHES = auto()
    DECLARATION = auto()
    QUESTION = auto()
    """In a declaration after a question mark."""
    DOCTYPE = auto()
    BROKEN = auto()


STEPS: dict[State, dict[str, State]] = {
    State.TEXT: {"<": State.LESS, "any": State.TEXT},
    State.LESS: {"/": State.END, "!": State.BANG, "?": State.DECLARATION, "first": State.NAME},
    State.END: {"first": State.END_NAME},
    State.END_NAME: {"further": State.END_NAME, "space": State.END_SPACE, ">": State.TEXT},
    State.END_SPACE: {"space": State.END_SPACE, ">": State.TEXT},
    State.NAME: {"further": State.NAME, "space": State.SPACE, "/": State.SLASH, ">": State.TEXT},
    State.SPACE: {"space": State.SPACE, "first": State.ATTRIBUTE, "/": State.SLASH, ">": State.TEXT},
    State.ATTRIBUTE: {"further": State.ATTRIBUTE, "space": State.ATTRIBUTE_SPACE, "=": State.EQUALS},
    State.ATTRIBUTE_SPACE: {"space": State.ATTRIBUTE_SPACE, "=": State.EQUALS},
    State.EQUALS: {"space": State.EQUALS, '"': State.DOUBLE, "'": State.SINGLE},
    State.DOUBLE: {'"': State.VALUE, "<": State.BROKEN, "any": State.DOUBLE},
    State.SINGLE: {"'": State.VALUE, "<": State.BROKEN, "any": State.SINGLE},
    State.VALUE: {"space": State.SPACE, "/": State.SLASH, ">": State.TEXT},
    State.SLASH: {">": State.TEXT},
    State.BANG: {"-": State.BANG_DASH, "any": State.DOCTYPE},
    State.BANG_DASH: {"-": State.COMMENT},
    State.COMMENT: {"-": State.DASH, "any": State.COMMENT},
    State.DASH: {"-": State.DASHES, "any": State.COMMENT},
    State.DASHES: {"-": State.DASHES, ">": State.TEXT, "any": State.COMMENT},
    State.DECLARATION: {"?": State.QUESTION, "any": State.DECLARATION},
    State.QUESTION: {"?": State.QUESTION, ">": State.TEXT, "any": State.DECLARATION},
    State.DOCTYPE: {">": State.TEXT, "<": State.BROKEN, "any": State.DOCTYPE},
    State.BROKEN: {},
}
"""The state after one more character, by the character or its kind; broken if there is none. Which declaration or doctype it is has to be
read again."""

IN_COMMENT = (State.COMMENT, State.DASH, State.DASHES)
SAME = bytes(range(256))
MOST_ENDS = 8
"""Up to how many places what follows is kept."""


def kinds(character: str) -> Iterator[str]:
    """The keys by which the table may have a character, the narrowest first."""
    yield character
    if character in " \t\r\n":
        yield "space"
    if re.fullmatch(NAME, character):
        yield "first"
    if re.fullmatch(NAME, "a" + character):
        yield "further"
    yield "any"


@lru_cache(maxsize=1024)
def steps(character: str) -> bytes:
    """For each state the one after a character."""
    found = [next((row[kind] for kind in kinds(character) if kind in row), State.BROKEN) for row in STEPS.values()]
    return bytes(found) + SAME[len(found) :]


@lru_cache(maxsize=4096)
def joined(character: str, after: bytes) -> bytes:
    """For each state the one after a character and what follows it."""
    return steps(character).translate(after)


class Outcomes(NamedTuple):
    """The texts that leave only whole units up to a place, and those that leave it in a comment."""

    whole: tuple[str, ...]
    in_comment: tuple[str, ...]


@lru_cache(maxsize=4096)
def outcomes(state: int, texts: str | tuple[str, ...], after: bytes) -> Outcomes:
    """What comes of each text that is written in a state, if what follows leads from each state to another one."""
    whole, in_comment = list[str](), list[str]()
    for text in texts:
        last = after[reduce(lambda now, character: steps(character)[now], text, state)]
        if last == State.TEXT:
            whole.append(text)
        elif last in IN_COMMENT:
            in_comment.append(text)
    return Outcomes(tuple(whole), tuple(in_comment))


class Reading:
    """A document, read forwards from where a stretch of it begins, and backwards from where it ends."""

    def __init__(self, text: str) -> None:
        self.text = text
        self.start, self.states = -1, bytearray()
        self.suffixes: dict[int, list[bytes]] = {}

    def before(self, start: int, place: int) -> int:
        """The state at a place of a stretch that begins outside of any tag."""
        if start != self.start:
            self.start, self.states = start, bytearray([State.TEXT])
        for character in self.text[start + len(self.states) - 1 : place]:
            self.states.append(steps(character)[self.states[-1]])
        return self.states[place - start]

    def is_text(self, start: int, keys: Keystrokes) -> bool:
        """Whether what was typed is text without a `<`."""
        return self.before(start, keys.start) == State.TEXT and "<" not in self.text[keys.start : keys.end]

    def is_whole(self, start: int, keys: Keystrokes, end: int) -> bool:
        """Whether there are only whole units in a stretch as it was typed."""
        return len(self.outcomes(start, keys._replace(texts=(self.text[keys.start : keys.end],)), end).whole) > 0

    def after(self, place: int, end: int) -> bytes:
        """For each state at a place the one at the end of a stretch."""
        if end not in self.suffixes:
            if len(self.suffixes) == MOST_ENDS:
                self.suffixes.clear()
            self.suffixes[end] = [SAME]
        tables = self.suffixes[end]
        for at in range(end - len(tables), place - 1, -1):
            tables.append(joined(self.text[at], tables[-1]))
        return tables[end - place]

    def outcomes(self, start: int, keys: Keystrokes, end: int) -> Outcomes:
        """What comes of each of some keystrokes in a stretch."""
        return outcomes(self.before(start, keys.start), keys.texts, self.after(keys.end, end))
