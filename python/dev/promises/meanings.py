"""What the items of src/ mean to a contract: types with their models, traits with their clauses, constants, and clauses."""

from __future__ import annotations

import re
from collections.abc import Iterator, Mapping, Sequence
from itertools import count, pairwise

from promises.definitions import meaning
from promises.scanning import Token, Unreadable
from promises.sources import Clause, Function, Item, Source, split
from promises.terms import NUMERAL, Piece, Reference, Term
from promises.tree import SRC, ClauseScope, FileScope, Tree, owner_of, trait_of

MODEL = "Model"
LETTERS = "ABCDEFGHIJKLMNOPQRSTUVWXYZ"


def generics_of(*lists: Sequence[Token]) -> dict[str, str]:
    """The type parameters, the lifetimes and the constants of an item and of a function in it, by the letters that stand for them."""
    found: dict[str, str] = {}
    for declared in (declared for tokens in lists for declared in split(tokens)):
        name = declared[declared[0].text == "const"].text
        letter = LETTERS[len(found)]
        found[name] = f"'{letter.lower()}" if name.startswith("'") else letter
    return found


def rust_pieces(tokens: Sequence[Token], names: Mapping[str, str], scope: ClauseScope) -> Iterator[Piece]:
    """What tokens of src/ mean: a letter for each type parameter, and a definition for each name or path of this repository."""
    at = 0
    while at < len(tokens):
        text = tokens[at].text
        follows = tokens[at + 1].text if at + 1 < len(tokens) else ""
        path = [text]
        while follows == "::" and at + 2 < len(tokens) and tokens[at + 2].text[0].isalpha():
            path.append(tokens[at + 2].text)
            at += 2
            follows = tokens[at + 1].text if at + 1 < len(tokens) else ""
        at += 1
        if text in names:
            yield from (names[text], *path[1:])
        elif follows == ":" or not (text[0].isalpha() or text[0] == "_"):
            yield str(int(text.replace("_", ""), 0)) if re.fullmatch(NUMERAL, text) else text
        else:
            yield from pieces_of_path(path, scope)


def pieces_of_path(path: Sequence[str], scope: ClauseScope) -> tuple[Piece, ...]:
    """What a path is: a definition, one of its variants or constants, or something of the kit."""
    if len(path) > 1 and (found := scope.tree.at_path(scope.crate, scope.source, path)) is not None:
        return (found,)
    first = scope.pieces(path[0]) if len(path) < 2 else scope.at_path(path[:-1])
    member = scope.member(path[0], path[1]) if len(path) == 2 else None
    return member or (*(first or path[:1]), *path[1:])


def parameters_of(function: Function) -> dict[str, tuple[str, list[Token]]]:
    """The parameters by their names, each as it is called here and with its type."""
    found: dict[str, tuple[str, list[Token]]] = {}
    numbers = count()
    for parameter in function.parameters:
        texts = [token.text for token in parameter]
        if "self" in texts and (":" not in texts or texts.index("self") < texts.index(":")):
            found["self"] = "self", parameter
        else:
            colon = texts.index(":")
            found[texts[colon - 1]] = f"#{next(numbers)}", parameter[colon + 1 :]
    return found


class Meanings:
    """What each definition of a repository means."""

    def __init__(self, tree: Tree) -> None:
        self.tree = tree

    def of(self, reference: Reference) -> list[Piece]:
        """What a definition means, with references to those that it speaks of."""
        try:
            return self.read(reference)
        except LookupError as error:
            raise Unreadable(f"{' '.join(reference)} has another form than this tool knows: {error}") from None

    def read(self, reference: Reference) -> list[Piece]:
        """What a definition means, if all of it has a known form."""
        crate = self.tree.crates[reference.crate]
        if reference.file != SRC:
            scope = FileScope(self.tree, reference.crate, reference.file)
            return meaning(scope.file.definitions[reference.name], scope)
        if reference.name in crate.items:
            source, item = crate.items[reference.name]
            return list(self.of_item(reference, source, item))
        found: list[Piece] = []
        for source, item, ghost in crate.members[reference.name]:
            found += [";", *self.of_ghost(reference.crate, source, item, ghost)]
        return found

    def place(self, reference: Reference) -> tuple[str, str, int, str]:
        """The crate, the file and the number of a definition: they order the definitions of a cycle, whatever their names are."""
        if reference.file == SRC:
            return reference.crate, reference.file, 0, reference.name
        return (
            reference.crate,
            reference.file,
            self.tree.crates[reference.crate].files[reference.file].definitions[reference.name].number,
            "",
        )

    def scope(self, crate: str, source: Source, clause: Clause | None = None, item: Item | None = None) -> ClauseScope:
        """What names are in an item, and in a clause of it."""
        name = "" if item is None else owner_of(item) if item.kind == "impl" else item.name
        owner = self.tree.used(crate, source, name) if name else None
        return ClauseScope(self.tree, crate, source, clause.imports if clause else {}, owner)

    def of_ghost(self, crate: str, source: Source, item: Item, ghost: Clause) -> list[Piece]:
        """What a ghost member or a ghost field means, or a constant of an `impl`."""
        scope, names = self.scope(crate, source, ghost, item), generics_of(item.generics)
        head = [names.get(token.text, token.text) for token in item.head] if item.kind == "impl" else []
        if not ghost.kind:
            return [*head, *rust_pieces(ghost.term, names, scope)]
        term = Term(scope, names | ({"Self": "Self"} if item.kind == "trait" else {}))
        term.read(ghost.term)
        return [*head, *term.pieces]

    def of_item(self, reference: Reference, source: Source, item: Item) -> Iterator[Piece]:
        """What an item means, and if it is a type what its model is."""
        crate, names = reference.crate, generics_of(item.generics)
        scope = self.scope(crate, source, item=item)
        yield item.kind
        if item.kind not in ("const", "static"):
            yield item.name
        elif any(token.text[0].islower() and after.text == "(" for token, after in pairwise(item.body)):
            raise Unreadable(f"{item.name} calls a function, whose body this tool does not read")
        for tokens in (item.generics, item.head, item.body):
            yield from (";", *rust_pieces(tokens, names, scope))
        for ghost in item.ghosts:
            yield from (";", "ghost", ghost.name)
            if item.kind == "trait":
                yield Reference(crate, SRC, f"{item.name}.{ghost.name}")
            else:
                yield from self.of_ghost(crate, source, item, ghost)
        for function in item.functions:
            yield from (";", "fn", function.name, *self.of_signature(crate, source, item, function))
            for clause in function.clauses:
                yield from (";", clause.kind, clause.name, *self.of_clause(crate, source, item, function, clause))
        for other, held in self.models(reference):
            for ghost in held.ghosts:
                yield from (";", "model", ghost.name, *self.of_ghost(crate, other, held, ghost))

    def models(self, reference: Reference) -> Iterator[tuple[Source, Item]]:
        """The model of a type."""
        for source in self.tree.crates[reference.crate].sources.values():
            for item in source.items:
                if item.kind == "impl" and trait_of(item) == MODEL and owner_of(item) == reference.name:
                    yield source, item

    def of_signature(self, crate: str, source: Source, item: Item | None, function: Function) -> Iterator[Piece]:
        """What a signature means."""
        scope = self.scope(crate, source, item=item)
        names = generics_of(item.generics if item else [], function.generics)
        types = [kind for _, kind in parameters_of(function).values()]
        for tokens in (function.generics, *types, function.result, function.bounds):
            yield from (",", *rust_pieces(tokens, names, scope))

    def of_clause(self, crate: str, source: Source, item: Item | None, function: Function, clause: Clause) -> list[Piece]:
        """What a clause means: its term, the types of the parameters that it names, and the bounds of their type parameters."""
        parameters, names = parameters_of(function), generics_of(item.generics if item else [], function.generics)
        ghosts = {other.name: f"ghost {other.name}" for other in function.clauses if other.kind == "ghost"}
        bound = names | {name: called for name, (called, _) in parameters.items()} | {"result": "result"} | ghosts
        if item is not None and item.kind == "trait":
            bound["Self"] = "Self"
        scope = self.scope(crate, source, clause, item)
        term = Term(scope, bound)
        term.read(clause.term)
        found = term.pieces
        for called, kind in (*parameters.values(), ("result", function.result)):
            if called in found:
                found += [";", called, *rust_pieces(kind, names, scope)]
        if item is not None and item.kind == "impl" and "self" in found:
            found += [";", "Self", *rust_pieces(item.head, names, scope)]
        for declared in (*split(item.generics if item else []), *split(function.generics)):
            if names[declared[declared[0].text == "const"].text] in found:
                found += [";", *rust_pieces(declared, names, scope)]
        for bounds in (function.bounds, item.head if item else []):
            if "where" in [token.text for token in bounds]:
                found += [";", *rust_pieces(bounds, names, scope)]
        return found
