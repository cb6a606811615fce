"""Tokens of Rattle, in src/, and of antt, in specs/ and between the braces of a clause.

`⟦<TYPE as TRAIT>⟧`, by which a clause names an `impl`, is one token.
"""

from __future__ import annotations

import re
from collections.abc import Iterator, Sequence
from dataclasses import dataclass

SPACE = re.compile(r"(?:\s+|--[^\n]*)+")
TERM = re.compile(r'⟦<[^⟧]*>⟧|"(?:\\.|[^"\\\n])*"|[(){};,@]|«[^»\s]*»|[^\s(){}.;,@"«»]+|\.')
RUST_SPACE = re.compile(r"(?:\s+|//[^\n]*)+")
COMMENTS = {SPACE: ("{-", "-}"), RUST_SPACE: ("/*", "*/")}
RUST = re.compile(r'b?"(?:\\.|[^"\\])*"|b?r(#*)".*?"\1|b?\'(?:\\.[^\']*|[^\\\'])\'|\'[A-Za-z_]\w*|[A-Za-z_]\w*|\d\w*|->|=>|::|.', re.DOTALL)
OPENING, CLOSING = "([{", ")]}"


RESERVED = frozenset("as in do let where elim record data open use mod pub package Type".split())
"""Words of antt that are names between « and » alone."""


class Unreadable(Exception):
    """What stands in a file is not what this tool knows. It says so, and skips nothing."""


@dataclass(frozen=True, slots=True)
class Token:
    """A piece of a file, with its place. A projection, as `.bounds`, is one token."""

    text: str
    line: int
    column: int
    is_first: bool
    """Nothing but blanks stands before it on its line."""

    def __str__(self) -> str:
        return self.text


class Places:
    """The lines and columns of a text."""

    def __init__(self, text: str) -> None:
        self.text, self.line, self.start, self.at = text, 1, 0, 0

    def token(self, text: str, place: int) -> Token:
        """A token at a place, which is not before that of the token before."""
        lines = self.text.count("\n", self.at, place)
        if lines:
            self.line, self.start = self.line + lines, self.text.rindex("\n", 0, place) + 1
        self.at = place
        return Token(text, self.line, place - self.start, not self.text[self.start : place].strip())


def skipped(text: str, place: int, space: re.Pattern[str]) -> int:
    """The place after the blanks and comments at a place. A comment between signs may have others in it."""
    opening, closing = COMMENTS[space]
    while True:
        found = space.match(text, place)
        place = found.end() if found else place
        if not text.startswith(opening, place):
            return place
        depth = 0
        for sign in re.finditer(f"{re.escape(opening)}|{re.escape(closing)}", text[place:]):
            depth += 1 if sign[0] == opening else -1
            if depth == 0:
                place += sign.end()
                break
        else:
            raise Unreadable(f"a comment is not closed: {text[place:place + 20]!r}")


def plain(word: str) -> str:
    """A name without the signs around it, unless it would be another word without them."""
    return word if word.startswith('"') or word.strip("«»") in RESERVED else word.strip("«»")


def term_tokens(text: str, places: Places, place: int, end: int) -> Iterator[tuple[Token, int]]:
    """The tokens of antt from a place on, each with the place at which it ends."""
    while True:
        before, place = place, skipped(text, place, SPACE)
        spaced = place > before
        if place >= end:
            return
        found = TERM.match(text, place, end)
        if found is None:
            raise Unreadable(f"line {places.line}: no token of antt begins with {text[place:place + 20]!r}")
        word = found[0]
        if word == "." and not spaced and (field := TERM.match(text, found.end(), end)) and (field[0][0].isalnum() or field[0][0] in "_«"):
            word, found = "." + field[0].strip("«»"), field
        yield places.token(plain(word), place), found.end()
        place = found.end()


def tokens_of_definitions(text: str) -> list[Token]:
    """The tokens of a file of specs/."""
    return [token for token, _ in term_tokens(text, Places(text), 0, len(text))]


class Reader:
    """Reads a file of src/ token by token, and what stands between the braces of a clause as antt."""

    def __init__(self, name: str, text: str) -> None:
        self.name, self.text, self.place, self.places = name, text, 0, Places(text)
        self.ahead: tuple[Token, int] | None = None

    def peek(self) -> Token | None:
        """The next token, or None at the end of the file."""
        if self.ahead is None:
            place = skipped(self.text, self.place, RUST_SPACE)
            if place == len(self.text):
                return None
            found = RUST.match(self.text, place)
            assert found is not None
            self.ahead = self.places.token(found[0], place), found.end()
        return self.ahead[0]

    def is_next(self, *texts: str) -> bool:
        """Whether the next token is one of these."""
        token = self.peek()
        return token is not None and token.text in texts

    def is_next_after(self, word: str, pattern: str) -> bool:
        """Whether a word is next, and then one that has a pattern."""
        return (
            self.is_next(word) and self.ahead is not None and re.compile(rf"\s+({pattern})\b").match(self.text, self.ahead[1]) is not None
        )

    def take(self, *texts: str) -> Token:
        """The next token, which has to be one of these if there are any."""
        token = self.peek()
        if token is None or self.ahead is None or (texts and token.text not in texts):
            raise self.unreadable(f"{' or '.join(texts) or 'a token'} has to follow, and not {token or 'the end'}")
        self.place, self.ahead = self.ahead[1], None
        return token

    def accept(self, *texts: str) -> bool:
        """Takes the next token if it is one of these, and says whether it was."""
        if not self.is_next(*texts):
            return False
        self.take()
        return True

    def unreadable(self, problem: str) -> Unreadable:
        """The error to raise at this place."""
        return Unreadable(f"{self.name}:{self.places.line}: {problem}")

    def until(self, *ends: str) -> list[Token]:
        """The tokens up to one of these outside all brackets, which is left."""
        found: list[Token] = []
        depth = 0
        while depth or not self.is_next(*ends):
            token = self.take()
            depth += (token.text in OPENING) - (token.text in CLOSING)
            if depth < 0:
                raise self.unreadable(f"none of {' '.join(ends)} was found")
            found.append(token)
        return found

    def group(self) -> list[Token]:
        """The tokens between the next bracket and the one that closes it."""
        closing = CLOSING[OPENING.index(self.take(*OPENING).text)]
        found = self.until(closing)
        self.take(closing)
        return found

    def term(self) -> list[Token]:
        """The tokens of antt between the next braces."""
        self.take("{")
        found: list[Token] = []
        depth = 1
        for token, end in term_tokens(self.text, self.places, self.place, len(self.text)):
            depth += (token.text in "({") - (token.text in ")}")
            self.place = end
            if depth == 0:
                return found
            found.append(token)
        raise self.unreadable("a brace is not closed")

    def import_line(self) -> list[Token]:
        """The tokens of antt up to a semicolon, which is taken."""
        found: list[Token] = []
        for token, end in term_tokens(self.text, self.places, self.place, len(self.text)):
            self.place = end
            if token.text == ";":
                return found
            found.append(token)
        raise self.unreadable("an import does not end")


def closing_of(tokens: Sequence[Token], start: int) -> int:
    """The number of the token that closes the bracket at a number, by round and curly brackets and, for a square one, by those."""
    opening = tokens[start].text
    closing = CLOSING[OPENING.index(opening)]
    depth = 0
    for number in range(start, len(tokens)):
        depth += (tokens[number].text == opening) - (tokens[number].text == closing)
        if depth == 0:
            return number
    raise Unreadable(f"line {tokens[start].line}: {opening} is not closed")
