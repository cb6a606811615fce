"""The text of the list of promises."""

from __future__ import annotations

import difflib
import re
import sys
from collections.abc import Iterator, Sequence
from pathlib import Path

from promises.hashes import Hashes
from promises.meanings import Meanings, generics_of, parameters_of
from promises.scanning import Token, Unreadable
from promises.sources import Clause, Function, Item, Source
from promises.tree import Crate, Tree, owner_of, trait_of

TOP = Path(__file__).resolve().parents[3]
LIST = Path("docs/promises.txt")
HEAD = """\
# What each public function of each crate promises: its signature, and a line for each clause, with a hash of all that the
# clause means, the definitions below it included. tools/promises writes this file; CONTRIBUTING.md says what a commit that
# changes a line has to explain.
"""


def readable(tokens: Sequence[Token], names: dict[str, str]) -> str:
    """A type or bounds as one would write them, with a letter for each type parameter."""
    text = " ".join(names.get(token.text, token.text) for token in tokens)
    text = re.sub(r" ?(::|[<(\[]) ?", r"\1", text)
    return re.sub(r"& ", "&", re.sub(r" ([>)\],;:])", r"\1", text)).replace("->(", "-> (")


def signature(function: Function, item: Item | None, before: str) -> str:
    """The signature of a function, without the names of its parameters."""
    names = generics_of(item.generics if item else [], function.generics)
    generics = f"<{readable(function.generics, names)}>" if function.generics else ""
    types = ", ".join(readable(kind, names) for _, kind in parameters_of(function).values())
    result = f" -> {readable(function.result, names)}" if function.result else ""
    bounds = f" {readable(function.bounds, names)}" if function.bounds else ""
    return f"{' '.join([*function.qualifiers, 'fn'])} {before}{function.name}{generics}({types}){result}{bounds}"


class Listing:
    """The lines of the list."""

    def __init__(self, tree: Tree) -> None:
        self.tree = tree
        self.meanings = Meanings(tree)
        self.hashes = Hashes(self.meanings.of, self.meanings.place)

    def text(self) -> str:
        """The whole list."""
        lines = [HEAD]
        for name in sorted(self.tree.crates):
            parts = sorted(self.parts(self.tree.crates[name]))
            lines += [f"\n{name}\n", *(f"  {line}\n" for part in parts for line in part)] if parts else []
        return "".join(lines)

    def parts(self, crate: Crate) -> Iterator[list[str]]:
        """The lines of each public function, trait and `impl` of a crate."""
        is_all = crate.is_program
        for source in crate.sources.values():
            for function in source.functions:
                is_main = is_all and source is crate.root and function.name == "main"
                if is_main or (function.is_public and (is_all or function.name in crate.exported or crate.is_open(source))):
                    yield self.function(crate, source, None, function, "")
            for item in source.items:
                name = owner_of(item) if item.kind == "impl" else item.name
                if is_all or name in crate.exported or crate.is_open(source) or name not in crate.items:
                    yield from self.members(crate, source, item, name)

    def members(self, crate: Crate, source: Source, item: Item, owner: str) -> Iterator[list[str]]:
        """The lines of what a trait or an `impl` has."""
        if item.kind not in ("trait", "impl"):
            return
        trait = trait_of(item) if item.kind == "impl" else ""
        names = generics_of(item.generics)
        if item.kind == "trait":
            found = [f"trait {owner}{readable(item.head, names)}"]
        else:
            found = [f"impl {readable(item.head, names)}"]
        found += [self.line(ghost, self.hashes.of(self.meanings.of_ghost(crate.name, source, item, ghost))) for ghost in item.ghosts]
        for name, value in item.associated.items():
            constant = Clause("", name, value, {})
            found.append(self.line(constant, self.hashes.of(self.meanings.of_ghost(crate.name, source, item, constant))))
        if item.kind == "trait" or len(found) > 1:
            yield found
        for function in item.functions:
            if item.kind == "trait" or function.is_public or (trait and function.clauses):
                yield self.function(crate, source, item, function, f"<{owner} as {trait}>::" if trait else f"{owner}::")

    def function(self, crate: Crate, source: Source, item: Item | None, function: Function, before: str) -> list[str]:
        """The lines of a function."""
        found = [signature(function, item, before)]
        for clause in function.clauses:
            found.append(self.line(clause, self.hashes.of(self.meanings.of_clause(crate.name, source, item, function, clause))))
        return found

    def line(self, clause: Clause, text: str) -> str:
        """The line of a clause."""
        return "  " + " ".join(filter(None, (clause.kind, clause.name, text)))


def main(words: Sequence[str], top: Path = TOP) -> int:
    """Writes the list, or compares it, and answers the status."""
    if words not in ([], ["--check"]):
        print("usage: tools/promises [--check]", file=sys.stderr)
        return 2
    try:
        text = Listing(Tree(top)).text()
    except Unreadable as error:
        print(f"promises: {error}", file=sys.stderr)
        return 2
    if not words:
        (top / LIST).write_text(text, encoding="utf-8")
        return 0
    written = (top / LIST).read_text(encoding="utf-8")
    changes = list(difflib.unified_diff(written.splitlines(), text.splitlines(), str(LIST), "the crates", lineterm="", n=2))
    print("\n".join(changes) if changes else f"{LIST} is what the crates promise")
    return 1 if changes else 0
