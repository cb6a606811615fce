"""The files of specs/: what each of their definitions means."""

from __future__ import annotations

from collections.abc import Iterator, Mapping, Sequence
from dataclasses import dataclass, field
from itertools import takewhile
from typing import NamedTuple

from promises.scanning import Token, Unreadable, tokens_of_definitions
from promises.terms import BRACKETS, SELF, SIGNS, Piece, Scope, Term

MODIFIERS = ("unfoldable", "abbrev", "pub")
FIXITIES = ("infix", "infixl", "infixr")
MODULE = "module "
"""What stands before the name of an imported file, so that it is no name of a term."""


class Import(NamedTuple):
    """A name that a file has from another one, or by which it calls another one."""

    path: tuple[str, ...]
    name: str | None
    """The name there; None if the whole file is imported."""
    is_public: bool


def imports_of(tokens: Sequence[Token], is_public: bool) -> Iterator[tuple[str, Import]]:
    """What the tokens after a `use` import, by the names that the file then has for it."""
    path = [tokens[0].text]
    at = 1
    while at < len(tokens) and tokens[at].text.startswith(".") and tokens[at].text != ".":
        path.append(tokens[at].text[1:])
        at += 1
    if at == len(tokens) or tokens[at].text == "as":
        # A file and an item of one name are two names.
        yield MODULE + (path[-1] if at == len(tokens) else tokens[at + 1].text), Import(tuple(path), None, is_public)
        return
    listed = [token.text for token in tokens[at + 2 : -1]]
    if [token.text for token in (*tokens[at : at + 2], tokens[-1])] != [".", "{", "}"]:
        raise Unreadable(f"line {tokens[0].line}: an import of another form")
    for names in " ".join(listed).split(" , "):
        name, _, other = names.removesuffix(" ,").partition(" as ")
        yield other or name, Import(tuple(path), name, is_public)


@dataclass
class Definition:
    """What one file says of a name: its signature and equations, or its `record` or `data`."""

    name: str
    statements: list[list[Token]] = field(default_factory=list)
    number: int = 0
    """Its number among those of the file."""
    fixity: tuple[str, ...] = ()
    is_data: bool = False
    constructors: list[str] = field(default_factory=list)


@dataclass
class File:
    """A file of specs/."""

    name: str
    imports: dict[str, Import] = field(default_factory=dict)
    definitions: dict[str, Definition] = field(default_factory=dict)
    constructors: dict[str, str] = field(default_factory=dict)
    """The `data` of each constructor."""


def items_of(tokens: Sequence[Token]) -> Iterator[list[Token]]:
    """The items of a file or of a `mutual` block: each begins in the first column, outside all brackets."""
    item: list[Token] = []
    depth = 0
    for token in tokens:
        if token.column == tokens[0].column and depth == 0 and item:
            yield from members_of(item)
            item = []
        depth += (token.text in BRACKETS) - (token.text in BRACKETS.values())
        item.append(token)
    if item:
        yield from members_of(item)


def members_of(item: list[Token]) -> Iterator[list[Token]]:
    """An item, or those of a `mutual` block."""
    words = [token.text for token in item[:3]]
    if "mutual" not in words:
        yield item
    else:
        yield from items_of(item[words.index("mutual") + 1 :])


def read_file(name: str, text: str) -> File:
    """Reads a file of specs/."""
    file = File(name)
    fixities: dict[str, tuple[str, ...]] = {}
    last: Definition | None = None
    for item in items_of(tokens_of_definitions(text)):
        words = [token.text for token in item]
        first = words[0] if words[0] != "pub" else words[1]
        if first == "use":
            file.imports.update(imports_of(item[words.index("use") + 1 :], words[0] == "pub"))
        elif first in FIXITIES:
            fixities.update((word, tuple(one for one in words if "◌" not in one)) for word in words if "◌" in word)
        elif first in ("record", "data"):
            last = declared(item[words.index(first) :])
            file.constructors.update((one, last.name) for one in last.constructors)
        elif first != "mod":
            last = statement_of(item, last, name)
        if last is not None:
            file.definitions[last.name] = last
    for number, definition in enumerate(file.definitions.values()):
        definition.number, definition.fixity = number, fixities.pop(definition.name, ())
    if fixities:
        raise Unreadable(f"{name}: a fixity of {' and '.join(fixities)}, which the file does not define")
    return file


def declared(item: list[Token]) -> Definition:
    """A `record` or a `data`, and the names of the constructors of a `data`."""
    found = Definition(item[1].text, [item], is_data=True)
    if item[0].text == "data":
        for at in (at for at, token in enumerate(item) if token.is_first and at > 0):
            names = list(takewhile(lambda text: text not in SIGNS, (token.text for token in item[at:])))
            if [token.text for token in item[at + len(names) : at + len(names) + 1]] == [":"]:
                found.constructors += names
    return found


def statement_of(item: list[Token], last: Definition | None, name: str) -> Definition:
    """The definition that a signature begins, or the last one with one equation more."""
    at = 0
    while item[at].text in MODIFIERS:
        at += 1
    if len(item) > at + 1 and item[at + 1].text == ":":
        return Definition(item[at].text, [item[at:]])
    if last is None or last.is_data or at or "=" not in [token.text for token in item] or "where" in [token.text for token in item]:
        raise Unreadable(f"{name}:{item[0].line}: neither a signature nor an equation of the definition before")
    last.statements.append(item)
    return last


def meaning(definition: Definition, scope: Scope) -> list[Piece]:
    """What a definition means, with a number in the place of each bound variable and of its own name."""
    own = {part: SELF for part in (definition.name, *definition.name.split("◌")) if part}
    found: list[Piece] = [*definition.fixity]
    if definition.is_data:
        term = Term(scope, own)
        term.pieces.append(definition.statements[0][0].text)
        term.read(definition.statements[0][2:])
        return [*found, *term.pieces]
    signature = Term(scope, own)
    signature.read(definition.statements[0][2:])
    found += signature.pieces
    for equation in definition.statements[1:]:
        found += [";", *meaning_of_equation(equation, scope, own)]
    return found


def meaning_of_equation(equation: Sequence[Token], scope: Scope, own: Mapping[str, str]) -> list[Piece]:
    """What an equation means: its patterns, and what follows the first equals sign outside brackets."""
    depth, at = 0, 0
    while depth or equation[at].text != "=":
        depth += (equation[at].text in ("(", "{")) - (equation[at].text in (")", "}"))
        at += 1
    term = Term(scope, own)
    term.pattern(equation[:at])
    term.read(equation[at:])
    return term.pieces
