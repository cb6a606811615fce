"""The files of src/: what each of their items promises, as tokens."""

from __future__ import annotations

from collections import ChainMap
from collections.abc import Iterator, MutableMapping, Sequence
from dataclasses import dataclass, field
from typing import NamedTuple

from promises.definitions import Import, imports_of
from promises.scanning import CLOSING, OPENING, Reader, Token

Imports = MutableMapping[str, Import]
CLAUSES = ("requires", "ensures", "ghost")
QUALIFIERS = ("const", "unsafe", "extern", "async", "static")


class Clause(NamedTuple):
    """A clause of a function, or a ghost member: its kind, its name if it has one, and its term."""

    kind: str
    name: str
    term: list[Token]
    imports: Imports
    """What its file imports for it, and the item around it."""


@dataclass
class Function:
    """The signature of a function, and its clauses."""

    name: str
    is_public: bool
    qualifiers: tuple[str, ...]
    generics: list[Token]
    parameters: list[list[Token]]
    result: list[Token]
    bounds: list[Token]
    clauses: list[Clause] = field(default_factory=list)


@dataclass
class Item:
    """A struct, enum, alias, constant, trait or `impl`, with what contracts see of it."""

    kind: str
    name: str
    is_public: bool
    generics: list[Token] = field(default_factory=list)
    head: list[Token] = field(default_factory=list)
    """What stands between the generics and the braces: bounds, or the trait and the type of an `impl`."""
    body: list[Token] = field(default_factory=list)
    """The fields, the variants or the value."""
    ghosts: list[Clause] = field(default_factory=list)
    functions: list[Function] = field(default_factory=list)
    associated: dict[str, list[Token]] = field(default_factory=dict)
    """The types and constants of a trait or an `impl`, each with the tokens after its name."""


@dataclass
class Source:
    """A file of src/: its items, and where its names come from."""

    name: str
    uses: dict[str, tuple[tuple[str, ...], bool]] = field(default_factory=dict)
    """The path of each name, and whether the file gives it on."""
    items: list[Item] = field(default_factory=list)
    functions: list[Function] = field(default_factory=list)
    public_modules: set[str] = field(default_factory=set)


def read_source(name: str, text: str) -> Source:
    """Reads a file of src/."""
    reader, source = Reader(name, text), Source(name)
    imports: Imports = {}
    while reader.peek() is not None:
        if skip_attribute(reader):
            continue
        is_public = read_visibility(reader)
        if reader.accept("ghost"):
            reader.take("use")
            imports.update(imports_of(reader.import_line(), False))
        elif reader.accept("use"):
            for path, other in paths_of(reader.until(";")):
                if other == "*" or (is_public and other != path[-1]):
                    raise reader.unreadable("a use of all names, or a public one under another name")
                source.uses[other] = path, is_public
            reader.take(";")
        elif reader.accept("mod"):
            module = reader.take().text
            source.public_modules.update([module] if is_public else [])
            reader.take(";")
        else:
            read_item(reader, source, imports, is_public)
    return source


def skip_attribute(reader: Reader) -> bool:
    """Skips an attribute, and says whether there was one."""
    if not reader.accept("#"):
        return False
    reader.accept("!")
    reader.group()
    return True


def read_visibility(reader: Reader) -> bool:
    """Reads `pub`, and says whether what follows is public beyond its crate."""
    if not reader.accept("pub"):
        return False
    if reader.is_next("("):
        reader.group()
        return False
    return True


def paths_of(tokens: Sequence[Token], before: tuple[str, ...] = ()) -> Iterator[tuple[tuple[str, ...], str]]:
    """The paths of a `use`, each with the name that the file has for it."""
    path = list(before)
    at = 0
    while at < len(tokens):
        text = tokens[at].text
        if text == "{":
            for part in split(tokens[at + 1 : -1]):
                yield from paths_of(part, tuple(path))
            return
        if text == "as":
            yield tuple(path), tokens[at + 1].text
            return
        path += [text] if text != "::" else []
        at += 1
    if path[-1] == "self":
        path.pop()
    yield tuple(path), path[-1]


def split(tokens: Sequence[Token]) -> list[list[Token]]:
    """The parts of a list between commas outside all brackets."""
    parts: list[list[Token]] = [[]]
    depth = 0
    for token in tokens:
        depth += (token.text in (*OPENING, "<")) - (token.text in (*CLOSING, ">"))
        if token.text == "," and depth == 0:
            parts.append([])
        else:
            parts[-1].append(token)
    return [part for part in parts if part]


def read_item(reader: Reader, source: Source, imports: Imports, is_public: bool) -> None:
    """Reads an item that is no import and no module."""
    qualifiers = read_qualifiers(reader)
    word = reader.take("fn", "struct", "enum", "type", "const", "static", "trait", "impl").text
    if word == "fn":
        source.functions.append(read_function(reader, imports, is_public, qualifiers))
    elif word in ("const", "static", "type"):
        name = reader.take().text
        body = reader.until(";")
        reader.take(";")
        source.items.append(Item(word, name, is_public, body=body))
    elif word in ("struct", "enum"):
        source.items.append(read_type(reader, imports, word, is_public))
    else:
        source.items.append(read_members(reader, ChainMap({}, imports), word, is_public))


def read_qualifiers(reader: Reader) -> tuple[str, ...]:
    """The words before `fn`. A `const` that begins an item of its own is left."""
    found: list[str] = []
    while reader.is_next("unsafe", "extern", "const") or (found and reader.is_next('"C"')):
        if reader.is_next("const") and not reader.is_next_after("const", r"fn|unsafe"):
            break
        found.append(reader.take().text)
    return tuple(found)


def read_generics(reader: Reader) -> list[Token]:
    """The tokens between angle brackets, if they follow."""
    if not reader.accept("<"):
        return []
    found: list[Token] = []
    depth = 1
    while depth:
        token = reader.take()
        depth += (token.text == "<") - (token.text == ">")
        found.append(token)
    return found[:-1]


def read_function(reader: Reader, imports: Imports, is_public: bool, qualifiers: tuple[str, ...]) -> Function:
    """Reads a function after its `fn`, and leaves out its body."""
    name = reader.take().text
    generics = read_generics(reader)
    parameters = split(reader.group())
    result = reader.until("where", "{", ";", *CLAUSES)[1:]
    bounds = reader.until("{", ";", *CLAUSES)
    made = Function(name, is_public, qualifiers, generics, parameters, result, bounds)
    while reader.is_next(*CLAUSES):
        made.clauses.append(read_clause(reader, imports))
    if not reader.accept(";"):
        reader.group()
    return made


def read_clause(reader: Reader, imports: Imports) -> Clause:
    """Reads a clause: `requires`, `ensures` or `ghost`, its name if it has one, and its term."""
    kind = reader.take(*CLAUSES).text
    kind += reader.take("*").text if reader.is_next("*") else ""
    name = "" if reader.is_next("{") else reader.take().text
    reader.accept(":", "=")
    return Clause(kind, name, reader.term(), imports)


def read_type(reader: Reader, imports: Imports, word: str, is_public: bool) -> Item:
    """Reads a struct or an enum after its first word: its fields and variants, and the ghost ones among them."""
    name = reader.take().text
    made = Item(word, name, is_public, read_generics(reader), reader.until("{", "(", ";"))
    if reader.accept(";"):
        return made
    opening = reader.take().text
    depth = 1
    while depth:
        if skip_attribute(reader):
            continue
        if reader.is_next("ghost"):
            made.ghosts.append(read_clause(reader, imports))
            continue
        token = reader.take()
        depth += (token.text in OPENING) - (token.text in CLOSING)
        made.body.append(token)
    made.body.pop()
    if opening == "(":
        made.head += reader.until(";")
        reader.take(";")
    return made


def read_members(reader: Reader, imports: Imports, word: str, is_public: bool) -> Item:
    """Reads a trait or an `impl` after its first word: its functions and its ghost members."""
    name = reader.take().text if word == "trait" else ""
    made = Item(word, name, is_public, read_generics(reader), reader.until("{"))
    reader.take("{")
    while not reader.accept("}"):
        if skip_attribute(reader):
            continue
        member_is_public = read_visibility(reader)
        if reader.is_next("ghost"):
            if reader.is_next_after("ghost", "use"):
                reader.take()
                reader.take()
                imports.update(imports_of(reader.import_line(), False))
            else:
                made.ghosts.append(read_clause(reader, imports))
                reader.take(";")
            continue
        qualifiers = read_qualifiers(reader)
        if reader.accept("fn"):
            made.functions.append(read_function(reader, imports, member_is_public, qualifiers))
            continue
        reader.take("type", "const")
        associated = reader.take().text
        made.associated[associated] = reader.until(";")
        reader.take(";")
    return made
