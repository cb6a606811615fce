"""What each name in a term of antt is: a bound variable, which becomes a number, or a definition, which becomes a reference."""

from __future__ import annotations

import re
from collections.abc import Mapping, Sequence
from dataclasses import dataclass, field
from typing import NamedTuple, Protocol

from promises.scanning import Token, Unreadable, closing_of

BRACKETS = {"(": ")", "{": "}", "[": "]"}
SIGNS = frozenset("→ × ↦ = | : [ ] ( ) { } , ; . @ _ λ ∀ let in do elim as record Type where ← pub data".split())
CONSTRUCTORS = frozenset("Ok Err Some None true false tt yes no refl zero suc pos negsuc inl inr squash₁ [] ∷".split())
"""Those that a pattern may name with no import."""


NUMERAL = r"0[xob][0-9a-fA-F_]+|[1-9][0-9_]*|0"
SELF = "self"
"""What a definition says in the place of its own name."""


class Reference(NamedTuple):
    """A definition of this repository: a type, trait, constant or `impl` of a crate, or what a file of its specs/ defines."""

    crate: str
    file: str
    """The file of specs/, or `src`."""
    name: str


Piece = str | Reference
"""A part of what something means: a text, or a definition that it speaks of."""


class Scope(Protocol):
    """What the names of a file are that its terms do not bind."""

    def pieces(self, name: str) -> tuple[Piece, ...] | None:
        """What a name is; None if it is nothing that the file imports or defines."""

    def member(self, name: str, member: str) -> tuple[Piece, ...] | None:
        """What a name in a module is; None if there is no such module."""

    def is_constructor(self, name: str) -> bool:
        """Whether a name in a pattern is a constructor and binds no variable."""


@dataclass
class Block:
    """Lines of a `do` or a `where`: their column, and what is bound in the next one of them."""

    column: int
    names: dict[str, str]


@dataclass
class Level:
    """What is bound between two brackets."""

    names: dict[str, str]
    closing: str = ""
    base: dict[str, str] = field(default_factory=dict)
    """What is bound in each branch of an `elim`."""
    later: dict[str, str] = field(default_factory=dict)
    """What is bound after the bracket."""
    lets: list[dict[str, str]] = field(default_factory=list)
    """What is bound after the `in` of each open `let`."""
    blocks: list[Block] = field(default_factory=list)
    products: set[str] = field(default_factory=set)
    """What `×` binds, which ends before the next arrow: brackets have to say so."""
    is_opening: bool = False
    """The next token is the first of a block."""


class Term:
    """A term that is read: its pieces so far, and what is bound at its end."""

    def __init__(self, scope: Scope, bound: Mapping[str, str]) -> None:
        self.scope = scope
        self.levels = [Level(dict(bound))]
        self.count = 0
        self.pieces: list[Piece] = []

    @property
    def level(self) -> Level:
        return self.levels[-1]

    def variable(self, name: str) -> str:
        """The number of a new variable. It is not bound yet."""
        self.count += 1
        return f"${self.count}"

    def read(self, tokens: Sequence[Token]) -> None:
        """Reads the tokens of a term."""
        at = 0
        while at < len(tokens):
            at = self.step(tokens, self.begin_line(tokens, at))

    def step(self, tokens: Sequence[Token], at: int) -> int:
        """Reads the token at a number, or what it begins, and answers the number of the token after it."""
        text = tokens[at].text
        if text in BRACKETS:
            return self.open(tokens, at)
        if text == self.level.closing:
            self.close(tokens, at)
        elif text == "|" and self.level.closing == "]":
            return self.branch(tokens, at)
        elif text == "λ":
            return self.binders(tokens, at)
        elif text == "let":
            return self.let(tokens, at)
        elif text == "in" and self.level.lets:
            self.level.names = self.level.lets.pop()
            self.pieces.append(text)
        elif text in ("do", "where") and at + 1 < len(tokens):
            self.level.blocks.append(Block(tokens[at + 1].column, dict(self.level.names)))
            self.level.is_opening = True
            operators = [self.scope.pieces(name) or () for name in ("◌>>=◌", "◌>>◌") if text == "do"]
            self.pieces += [text, *(piece for pieces in operators for piece in pieces)]
        elif text in ("→", "⊎", "↔") and self.level.products:
            raise unclear(tokens[at], f"brackets have to say how far {' and '.join(sorted(self.level.products))} reaches")
        elif text == ";" and self.level.blocks:
            raise unclear(tokens[at], "a block has a statement on each line")
        elif text.startswith('"'):
            self.pieces.append(text)
        else:
            return self.name(tokens, at)
        return at + 1

    def begin_line(self, tokens: Sequence[Token], at: int) -> int:
        """Ends the statement before this token if it begins another one, and answers the number of the token to go on with."""
        token, level = tokens[at], self.level
        while level.blocks and token.is_first and token.column < level.blocks[-1].column:
            level.names = level.blocks.pop().names
            self.pieces.append("end")
        begins = level.is_opening or (token.is_first and bool(level.blocks) and token.column == level.blocks[-1].column)
        level.is_opening = False
        if not begins:
            return at
        self.pieces.append(";;")
        level.names = dict(level.blocks[-1].names)
        level.products.clear()
        return self.statement(tokens, at)

    def statement(self, tokens: Sequence[Token], at: int) -> int:
        """Reads what a statement binds, up to the arrow after it, and keeps the names of fields and of constructors as they are."""
        end, block = at + 1, self.level.blocks[-1]
        while end < len(tokens) and not (tokens[end].is_first and tokens[end].column <= tokens[at].column):
            if tokens[end].text == "←":
                outside = dict(self.level.names)
                self.pattern(tokens[at:end])
                block.names, self.level.names = self.level.names, outside
                return end
            end += 1
        named = at + (tokens[at].text == "pub")
        last = named
        while last < len(tokens) and tokens[last].text not in SIGNS:
            last += 1
        if last < len(tokens) and tokens[last].text == ":":
            own = {token.text: f".{token.text}" for token in tokens[named:last]}
            block.names.update(own)
            self.level.names.update(own)
        return at

    def open(self, tokens: Sequence[Token], at: int) -> int:
        """Reads a bracket, and the names that it binds or the pattern of the first branch."""
        text = tokens[at].text
        names = dict(self.level.names)
        self.pieces.append(text)
        self.levels.append(Level(names, BRACKETS[text], dict(names)))
        if text == "[":
            return self.pattern_of_branch(tokens, at + 1)
        end = at + 1
        while end < len(tokens) and tokens[end].text not in SIGNS:
            end += 1
        is_record = at > 0 and tokens[at - 1].text == "record"
        if end < len(tokens) and tokens[end].text == ":" and end > at + 1 and not is_record:
            self.level.later = {token.text: self.variable(token.text) for token in tokens[at + 1 : end]}
            # A caller may write the name of an implicit argument.
            self.pieces += self.level.later.values() if text == "(" else (piece for pair in self.level.later.items() for piece in pair)
            return end
        return at + 1

    def close(self, tokens: Sequence[Token], at: int) -> None:
        """Reads the bracket that closes the innermost one."""
        ended = self.levels.pop()
        if ended.lets:
            raise unclear(tokens[at], "a let without its in")
        self.level.names.update(ended.later)
        if ended.later and tokens[at + 1 : at + 2] and tokens[at + 1].text == "×":
            self.level.products.update(ended.later)
        self.pieces.append(tokens[at].text)

    def branch(self, tokens: Sequence[Token], at: int) -> int:
        """Reads the bar before a branch of an `elim`, and its pattern."""
        self.level.names = dict(self.level.base)
        self.level.products.clear()
        self.pieces.append("|")
        return self.pattern_of_branch(tokens, at + 1)

    def pattern_of_branch(self, tokens: Sequence[Token], at: int) -> int:
        """Reads a pattern up to its arrow, if one follows before the next branch."""
        end, depth = at, 0
        while end < len(tokens) and (depth or tokens[end].text not in ("↦", "|", "]")):
            depth += (tokens[end].text in BRACKETS) - (tokens[end].text in BRACKETS.values())
            end += 1
        if end < len(tokens) and tokens[end].text == "↦":
            self.pattern(tokens[at:end])
            return end
        return at

    def pattern(self, tokens: Sequence[Token]) -> None:
        """Reads a pattern: names that are no constructors are bound."""
        at = 0
        while at < len(tokens):
            text = tokens[at].text
            is_argument = at + 1 < len(tokens) and tokens[at + 1].text == "="
            if self.level.names.get(text) == SELF:
                self.pieces.append(SELF)
                at += 1
            elif at > 0 and tokens[at - 1].text == "{" and self.binds(text) and not is_argument:
                # An implicit argument is bound by its own name.
                self.level.names[text] = self.variable(text)
                self.pieces += [text, self.level.names[text]]
                at += 1
            elif self.binds(text) and not is_argument and not (at + 1 < len(tokens) and tokens[at + 1].text.startswith(".")):
                self.level.names[text] = self.variable(text)
                self.pieces.append(self.level.names[text])
                at += 1
            elif is_argument or text in SIGNS or text.startswith('"'):
                self.pieces.append(text)
                at += 1
            else:
                at = self.name(tokens, at)

    def binds(self, text: str) -> bool:
        """Whether a token of a pattern is a variable."""
        is_name = text not in SIGNS and not text[0].isdigit() and text[0] not in '".'
        return is_name and text not in CONSTRUCTORS and not self.scope.is_constructor(text)

    def binders(self, tokens: Sequence[Token], at: int) -> int:
        """Reads a λ and what it binds, up to the dot."""
        self.pieces.append("λ")
        at += 1
        while tokens[at].text != ".":
            text = tokens[at].text
            if text in BRACKETS:
                end = closing_of(tokens, at)
                inside = tokens[at : end + 1]
                if any(token.text == ":" for token in inside):
                    self.read(inside)
                else:
                    self.pattern(inside)
                at = end + 1
                continue
            if text != "_":
                self.level.names[text] = text = self.variable(text)
            self.pieces.append(text)
            at += 1
        return at

    def let(self, tokens: Sequence[Token], at: int) -> int:
        """Reads the name that a `let` binds. It is bound from the `in` on."""
        name, sign = tokens[at + 1], tokens[at + 2].text
        if not self.binds(name.text) or sign not in ("=", ":"):
            raise unclear(name, "a let of a pattern")
        found = self.variable(name.text)
        self.pieces += ["let", found]
        self.level.lets.append(self.level.names | {name.text: found})
        return at + 2

    def name(self, tokens: Sequence[Token], at: int) -> int:
        """Reads a name, with what follows it in the module that it names, or a sign."""
        text = tokens[at].text
        follows = tokens[at + 1].text if at + 1 < len(tokens) else ""
        is_field = follows in ("=", ":") and at > 0 and tokens[at - 1].text in "{;" and self.level.closing == "}"
        if text.startswith(".") or text in SIGNS or is_field:
            self.pieces.append(text)
        elif text in self.level.names:
            self.pieces.append(self.level.names[text])
        elif text in ("Rattle", "package") and follows.startswith("."):
            raise unclear(tokens[at], "a path in a term: import the name")
        elif re.fullmatch(NUMERAL, text):
            self.pieces.append(str(int(text.replace("_", ""), 0)))
        elif follows.startswith(".") and (found := self.scope.member(text, follows[1:])):
            self.pieces += found
            return at + 2
        else:
            self.pieces += self.scope.pieces(text) or (text,)
        return at + 1


def unclear(token: Token, problem: str) -> Unreadable:
    """The error of a term that this tool cannot read."""
    return Unreadable(f"line {token.line}: {problem}")
