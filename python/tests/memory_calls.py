#!/usr/bin/env python3
"""The public calls of the crates that can answer 'out of memory', and what shows that each of them answers otherwise.

A body that always answers 'out of memory' is proved like any other. What excludes it is a test, a row of `command_rows`, or a
question of another program whose output is compared. This script reads the sources: which functions are public, what they
return, and which functions they call. It goes by names, so it finds what can make a call. `tml_answer` of `tml_c`, which
returns a number, and `run` of the program `tml_verify` stand below the table, by hand.

usage: python/tests/memory_calls.py            prints the table of memory_calls.md
       python/tests/memory_calls.py --write    writes it there
"""

from __future__ import annotations

import re
import sys
from collections import defaultdict
from collections.abc import Iterable, Iterator
from dataclasses import dataclass, field
from functools import cached_property
from pathlib import Path

TOP = Path(__file__).resolve().parents[2]
CRATES = TOP / "crates"
PAGE = TOP / "python" / "tests" / "memory_calls.md"
HEAD = "| crate | call | shown by |\n|---|---|---|\n"

OUT_OF_MEMORY = {"Memory", "NoMemory", "AllocError", "AllocFailed"}
"""The types and the variants that say so."""
ROWS = ("library_rows", "command_rows")
"""The programs whose output is compared with what is wanted. What `command_rows` asks `run` is known by its commands."""
COMMANDS = CRATES / "tml_tool" / "src" / "commands.rt"
RUN = CRATES / "tml_tool" / "src" / "top.rt"

COMMENT = re.compile(r"^\s*//.*$", re.MULTILINE)
ENUM = re.compile(r"^pub enum (\w+)[^{;]*\{(.*?)^\}", re.MULTILINE | re.DOTALL)
VARIANT = re.compile(r"^    (\w+)(.*?),$", re.MULTILINE | re.DOTALL)
TRAIT = re.compile(r"^(?:pub )?trait .*?^\}", re.MULTILINE | re.DOTALL)
EMPTY_BLOCK = re.compile(r"^impl.*\{\}$", re.MULTILINE)
ERROR = re.compile(r"Result<.*[,\s](\w+)(?:<.*>)?,?\s*>|(\w+)", re.DOTALL)
BLOCK = re.compile(r"^impl(?:<.*?>)? (?:([\w:]+)(?:<.*?>)? for )?(\w+)", re.MULTILINE)
FUNCTION = re.compile(
    r"^(?P<indent> *)(?P<public>pub )?(?:const )?fn (?P<name>\w+)(?P<rest>[^\n]*\{\}$|.*?\n(?P=indent)(?:\}|\{\})$)",
    re.MULTILINE | re.DOTALL,
)
RESULT = re.compile(r"\)\s*->\s*(.*?)\s*(?=\n *(?:requires|ensures|where)\b|\n? *\{)", re.DOTALL)
BODY = re.compile(r"(?:^|(?<=\s))\{(?=\n)", re.MULTILINE)
USE = re.compile(r"^(?:pub )?use ([\w:]+)::(?:\{(.*?)\}|(\w+)(?: as \w+)?);", re.MULTILINE | re.DOTALL)
WORD = re.compile(r"\w+")
CALL = re.compile(r"(?:(?P<owner>\w+)::|(?P<method>\.))?\b(?P<name>[a-z_]\w*)(?=\s*(?:::<[^>]*>)?\()")
PASSED = re.compile(r"[(,]\s*(?:crate::)?([a-z_]\w*)(?=\s*[,)])")
ARM = re.compile(r"Form::(\w+) => (.*?)(?=\n        Form::|\n    \}\n)", re.DOTALL)


@dataclass(frozen=True)
class Function:
    """A function of a crate: the file, the type and the trait whose `impl` it stands in, if any, and its text."""

    crate: str
    file: Path
    trait: str | None
    owner: str | None
    name: str
    is_public: bool
    returned: str
    body: str

    @property
    def shown(self) -> str:
        """Its name as a caller writes it."""
        return f"{self.owner}::{self.name}" if self.owner else self.name


@dataclass
class File:
    """A source file: its crate, its path, its functions, and from which crate it brings in each name."""

    crate: str
    path: Path
    text: str
    functions: list[Function] = field(default_factory=list)

    @cached_property
    def brought(self) -> dict[str, str]:
        """The crate of each name that a `use` brings in: this one, where it is that of a module."""
        crates = {}
        for path, several, one in USE.findall(self.text):
            root = path.split("::")[0]
            for name in WORD.findall(several or one):
                crates[name] = root if (CRATES / root).is_dir() else self.crate
        return crates


def read_file(crate: str, path: Path) -> File:
    """A file with its functions. Traits are left out, since what they declare has no body, and so are empty blocks."""
    text = path.read_text(encoding="utf-8")
    for left_out in (COMMENT, TRAIT, EMPTY_BLOCK):
        text = left_out.sub("", text)
    file = File(crate, path, text)
    blocks = [(found.start(), text.find("\n}\n", found.start()), found[1], found[2]) for found in BLOCK.finditer(text)]
    for found in FUNCTION.finditer(text):
        trait, owner = next(((trait, owner) for start, end, trait, owner in blocks if start < found.start() < end), (None, None))
        returned, opened = RESULT.search(found["rest"]), BODY.search(found["rest"])
        body = found["rest"][opened.end() :] if opened else ""
        file.functions.append(
            Function(crate, path, trait, owner, found["name"], found["public"] is not None, returned[1] if returned else "", body)
        )
    return file


def read_all() -> list[File]:
    """All source files of all crates."""
    return [read_file(path.relative_to(CRATES).parts[0], path) for path in sorted(CRATES.glob("*/src/**/*.rt"))]


def types_with_memory(files: Iterable[File]) -> set[str]:
    """The types that say 'out of memory', and the enums of which a variant does."""
    words: dict[str, set[str]] = defaultdict(set)
    for file in files:
        for name, variants in ENUM.findall(file.text):
            for variant, held in VARIANT.findall(variants):
                words[name] |= set(WORD.findall(held)) | ({variant} & OUT_OF_MEMORY)
    types = set(OUT_OF_MEMORY)
    while more := {name for name, held in words.items() if held & types} - types:
        types |= more
    return types


def can_be_out_of_memory(function: Function, types: set[str]) -> bool:
    """Whether the error of what a function returns, or all of it, is of one of these types."""
    found = ERROR.fullmatch(function.returned)
    return found is not None and (found[1] or found[2]) in types


def exported(crate: str) -> tuple[set[str], set[str]]:
    """The names that a library hands out, and its modules of which all is public."""
    root = CRATES / crate / "src" / "lib.rt"
    if not root.exists():
        return set(), set()
    text = root.read_text(encoding="utf-8")
    uses = "\n".join(re.findall(r"^pub use .*?;", text, re.MULTILINE | re.DOTALL))
    names = {name for _, several, one in USE.findall(uses) for name in WORD.findall(several or one)}
    names |= set(re.findall(r"^pub (?:struct|enum|fn) (\w+)", text, re.MULTILINE))
    return names, set(re.findall(r"^pub mod (\w+);", text, re.MULTILINE))


class Graph:
    """Which functions call which."""

    def __init__(self, files: list[File]) -> None:
        self.files = {file.path: file for file in files}
        self.named: dict[str, list[Function]] = defaultdict(list)
        self.of_traits: dict[str, list[Function]] = defaultdict(list)
        self.found: dict[Function, set[Function]] = {}
        for file in files:
            for function in file.functions:
                self.named[function.name].append(function)
                if function.trait and function.owner:
                    self.of_traits[function.owner].append(function)

    def calls(self, caller: Function) -> set[Function]:
        """The functions that a function may call."""
        if caller not in self.found:
            self.found[caller] = set(self.called(caller, caller.body))
        return self.found[caller]

    def called(self, caller: Function, text: str) -> Iterator[Function]:
        """The functions that a text of a function may call. A type that it names may have its traits' methods called."""
        file = self.files[caller.file]
        for found in CALL.finditer(text):
            yield from self.meant(file, caller, found["owner"], bool(found["method"]), found["name"])
        for name in PASSED.findall(text):
            yield from self.meant(file, caller, None, False, name)
        for name in set(re.findall(r"\b[A-Z]\w*", text)):
            yield from self.of_traits.get(name, ())

    def meant(self, file: File, caller: Function, owner: str | None, is_method: bool, name: str) -> Iterator[Function]:
        """The functions that a name may mean where it is called."""
        for function in self.named.get(name, ()):
            if is_method:
                if function.owner and function.trait is None and self.is_at_hand(file, function):
                    yield function
            elif owner is not None:
                wanted = caller.owner if owner == "Self" else owner
                if wanted == (function.owner or function.file.stem) or function.owner is None and wanted == function.crate:
                    yield function
            elif function.owner is None and self.home(file.brought.get(name, file.crate), name) == function.crate:
                yield function

    def home(self, crate: str, name: str) -> str:
        """The crate that a name comes from, by way of those that only hand it on."""
        root = self.files.get(CRATES / crate / "src" / "lib.rt")
        further = root.brought.get(name, crate) if root else crate
        return crate if further == crate else self.home(further, name)

    def is_at_hand(self, file: File, function: Function) -> bool:
        """Whether a method can be meant there: it alone has this name, or it stands there, or its type is brought in."""
        if function.file == file.path or len([other for other in self.named[function.name] if other.owner]) == 1:
            return True
        owner = function.owner or ""
        return owner in file.brought and self.home(file.brought[owner], owner) == function.crate

    def reached(self, first: Iterable[Function]) -> set[Function]:
        """These functions and all that they may call, one through another."""
        found, open_ones = set(), list(first)
        while open_ones:
            function = open_ones.pop()
            if function not in found:
                found.add(function)
                open_ones += self.calls(function)
        return found


def public_calls(files: list[File]) -> list[Function]:
    """The public calls of libraries that can answer 'out of memory', in the order of their crates."""
    types = types_with_memory(files)
    calls = []
    for file in files:
        names, modules = exported(file.crate)
        for function in file.functions:
            handed_out = function.owner in names if function.owner else function.name in names or file.path.stem in modules
            if function.is_public and handed_out and can_be_out_of_memory(function, types):
                calls.append(function)
    return calls


def is_test(file: File) -> bool:
    """Whether a file holds tests."""
    return "tests" in (file.path.stem, file.path.parent.name)


def shown_by(graph: Graph, files: list[File]) -> dict[Function, str]:
    """What shows of each function that it answers: a test or a program of rows that calls it, else the first command of
    `command_rows` that may reach it, else a program of rows that may."""
    shown: dict[Function, str] = {}

    def show(functions: Iterable[Function], what: str) -> None:
        for function in functions:
            shown.setdefault(function, what)

    for file in files:
        if is_test(file):
            for function in file.functions:
                show(graph.calls(function), f"a test of `{file.path.relative_to(CRATES)}`")
    programs = [(file, f"the program `{file.crate}`") for file in files if file.crate in ROWS]
    for file, what in programs:
        for function in file.functions:
            show(graph.calls(function), what)
    for word, functions in commands(graph):
        show(graph.reached(functions), f"rows of `{word}`")
    for file, what in programs:
        show(graph.reached(file.functions), what)
    return shown


def commands(graph: Graph) -> Iterator[tuple[str, set[Function]]]:
    """The word of each command, and the functions that its line calls; and at the end those of any command."""
    replies = next(function for function in graph.files[COMMANDS].functions if function.name == "reply_with")
    lines = ARM.findall(replies.body)
    for form, line in lines:
        yield form.lower(), set(graph.called(replies, line))
    yield lines[0][0].lower(), {function for function in graph.files[RUN].functions if function.name == "run"}


def table() -> str:
    """The table of memory_calls.md: a line for the calls of a crate that one thing shows.

    Raises LookupError where nothing reaches a call.
    """
    files = read_all()
    shown = shown_by(Graph(files), files)
    lines: dict[tuple[str, str], list[str]] = {}
    missing = []
    for call in public_calls(files):
        if call in shown:
            lines.setdefault((call.crate, shown[call]), []).append(f"`{call.shown}`")
        else:
            missing.append(f"{call.crate}: {call.shown}")
    if missing:
        raise LookupError("no test and no row reaches " + ", ".join(missing))
    return HEAD + "".join(f"| `{crate}` | {', '.join(calls)} | {what} |\n" for (crate, what), calls in sorted(lines.items()))


def written(page: str) -> str:
    """The table as a page has it; the empty text where it has none."""
    start = page.find(HEAD)
    return page[start : page.find("\n\n", start) + 1] if start >= 0 else ""


def main() -> int:
    """Prints the table, or writes it into its page."""
    made = table()
    if sys.argv[1:] != ["--write"]:
        print(made, end="")
        return 0
    page = PAGE.read_text(encoding="utf-8")
    PAGE.write_text(page.replace(written(page), made), encoding="utf-8")
    return 0


if __name__ == "__main__":
    sys.exit(main())
