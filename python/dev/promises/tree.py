"""The files of a repository, and which definition a name of another file is."""

from __future__ import annotations

import re
from collections import Counter, defaultdict
from collections.abc import Callable, Iterable, Mapping, Sequence
from functools import cached_property
from pathlib import Path
from typing import TypeVar

from promises.definitions import MODULE, File, Import, read_file
from promises.scanning import Unreadable
from promises.sources import Clause, Item, Source, read_source
from promises.terms import Piece, Reference

ROOTS = ("lib.rt", "main.rt")
SRC = "src"


Read = TypeVar("Read")


def read_with(read: Callable[[str, str], Read], path: Path) -> Read:
    """The contents of a file. A file that ends too early is `Unreadable`."""
    try:
        return read(str(path), path.read_text("utf-8"))
    except LookupError as error:
        raise Unreadable(f"{path} has another form than this tool knows: {error}") from None


class Crate:
    """The files of one crate."""

    def __init__(self, name: str, folder: Path) -> None:
        self.name = name
        src, specs = folder / "src", folder / "specs"
        self.sources = {path.relative_to(src).as_posix(): read_with(read_source, path) for path in sorted(src.rglob("*.rt"))}
        paths = {path.relative_to(specs).with_suffix("").parts: path for path in sorted(specs.rglob("*.antt"))}
        self.files = {".".join(parts): read_with(read_file, path) for parts, path in paths.items()}
        declared = [
            (name, source, item)
            for name, source in self.sources.items()
            for item in source.items
            if item.kind != "impl" and item.name != "_"
        ]
        counted = Counter(item.name for _, _, item in declared)
        # Of a name that several files have, each file has its own.
        self.items = {item.name if counted[item.name] == 1 else f"{name} {item.name}": (source, item) for name, source, item in declared}

    @property
    def root(self) -> Source:
        """The file by which the crate begins."""
        return next(self.sources[name] for name in ROOTS if name in self.sources)

    @property
    def is_program(self) -> bool:
        return "main.rt" in self.sources

    def is_open(self, source: Source) -> bool:
        """Whether other crates reach the items of a file by the path of its module."""
        parts = source_name(self, source).removesuffix(".rt").split("/")
        above = [self.root, *(self.sources["/".join(parts[:count]) + ".rt"] for count in range(1, len(parts)))]
        return source is self.root or all(part in one.public_modules for part, one in zip(parts, above, strict=True))

    @cached_property
    def exported(self) -> set[str]:
        """The names that other crates can use."""
        given = {name for name, (_, is_public) in self.root.uses.items() if is_public}
        own = {item.name for item in self.root.items if item.is_public} | {one.name for one in self.root.functions if one.is_public}
        return given | own

    @cached_property
    def members(self) -> dict[str, list[tuple[Source, Item, Clause]]]:
        """The ghost members of traits, by TRAIT.NAME, and those of the `impl`s for a type, by TYPE.NAME, each with its item."""
        found: defaultdict[str, list[tuple[Source, Item, Clause]]] = defaultdict(list)
        for source in self.sources.values():
            for item in source.items:
                owner = item.name if item.kind == "trait" else owner_of(item)
                for ghost in item.ghosts if item.kind in ("trait", "impl") else ():
                    found[f"{owner}.{ghost.name}"].append((source, item, ghost))
                for name, value in item.associated.items():
                    found[f"{owner}.{name}"].append((source, item, Clause("", name, value, {})))
        return found


def source_name(crate: Crate, source: Source) -> str:
    """The name of a file of src/."""
    return next(name for name, one in crate.sources.items() if one is source)


def owner_of(item: Item) -> str:
    """The name of the type of an `impl`."""
    texts = [token.text for token in item.head]
    if "for" in texts:
        texts = texts[texts.index("for") + 1 :]
    for text in texts:
        if text[0].isalpha() and text not in ("mut", "dyn"):
            return text
    return "".join(texts)


def trait_of(item: Item) -> str:
    """The name of the trait of an `impl`, without its arguments; nothing if it has none."""
    texts = [token.text for token in item.head]
    if "for" not in texts:
        return ""
    path = texts[: texts.index("for")]
    return path[: path.index("<")][-1] if "<" in path else path[-1]


class Tree:
    """The crates of a repository."""

    def __init__(self, top: Path) -> None:
        lines = (line.partition("#")[0].partition(":")[0].split() for line in (top / "crates.txt").read_text("utf-8").splitlines())
        self.crates = {line[0]: Crate(line[0], top / "crates" / line[0]) for line in lines if line}
        self.check_imports()

    def check_imports(self) -> None:
        """Finds what each file of specs/ imports of this repository."""
        for crate in self.crates.values():
            for line in (line for file in crate.files.values() for line in file.imports.values()):
                self.imported(line)

    def item(self, crate: str, name: str) -> Reference | None:
        """The type, trait or constant that a crate gives by a name, be it one of another crate."""
        held = self.crates[crate]
        if name in held.items:
            return Reference(crate, SRC, name)
        for source in held.sources.values():
            path, is_public = source.uses.get(name, ((), False))
            if is_public and (found := self.at_path(crate, source, path)) is not None:
                return found
        return None

    def member(self, item: Reference, name: str) -> Reference | None:
        """The ghost member, or the constant, of a trait or of an `impl` for a type."""
        known = f"{item.name}.{name}"
        return Reference(item.crate, SRC, known) if known in self.crates[item.crate].members else None

    def used(self, crate: str, source: Source, name: str) -> Reference | None:
        """The type, trait or constant that a file of src/ has by a name."""
        for known in (f"{source_name(self.crates[crate], source)} {name}", name):
            if known in self.crates[crate].items and self.crates[crate].items[known][0] is source:
                return Reference(crate, SRC, known)
        path, _ = source.uses.get(name, ((), False))
        return self.at_path(crate, source, path) if path else None

    def at_path(self, crate: str, source: Source, path: Sequence[str]) -> Reference | None:
        """The type, trait or constant at a path, as a file of src/ writes it."""
        first, *rest = path
        if not rest:
            return self.used(crate, source, first)
        if first in source.uses and source.uses[first][0] != tuple(path):
            return self.at_path(crate, source, (*source.uses[first][0], *rest))
        is_own = first in ("crate", "super", "self") or any(
            name.split("/")[0] in (first, f"{first}.rt") for name in self.crates[crate].sources
        )
        home = crate if is_own else first
        if home not in self.crates:
            return None
        modules = [part for part in (path if is_own else rest)[:-1] if part not in ("crate", "super", "self")]
        known = f"{'/'.join(modules)}.rt {path[-1]}"
        return Reference(home, SRC, known) if known in self.crates[home].items else self.item(home, path[-1])

    def imported(self, line: Import, name: str | None = None) -> tuple[Piece, ...]:
        """What a name in a file of specs/ is, or what is declared of src/."""
        path, name = line.path, line.name if name is None else name
        full = ".".join((*path, name or ""))
        if name is None or len(path) < 3 or path[1] not in self.crates or path[2] != "specs":
            return (full,)
        if path[3:4] == ("declared",):
            return self.declared(path, name, full)
        module = ".".join(path[3:])
        file = self.crates[path[1]].files.get(module)
        if file is None:
            raise Unreadable(f"there is no file of {'.'.join(path)}, which is imported")
        found = self.defined(path[1], module, file, name)
        if found is None:
            raise Unreadable(f"{full} is imported, and not defined")
        return found

    def declared(self, path: tuple[str, ...], name: str, full: str) -> tuple[Piece, ...]:
        """What contracts see of src/: a type, a variant, or a constant."""
        parts = path[4:]
        if parts[-1] == "TheConstants":
            known = f"{'/'.join(parts[:-1])}.rt {name}"
            found = Reference(path[1], SRC, known) if known in self.crates[path[1]].items else self.item(path[1], name)
        else:
            modules = parts[:-2] if parts[-1] == "TheVariants" else parts[:-1]
            kind = parts[-2] if parts[-1] == "TheVariants" else parts[-1]
            known = f"{'/'.join(modules)}.rt {kind}"
            found = Reference(path[1], SRC, known) if known in self.crates[path[1]].items else self.item(path[1], kind)
        if found is None:
            raise Unreadable(f"{full} is imported, and not declared")
        if parts[-1] == "TheConstants" or name == parts[-1]:
            return (found,)
        return (found, f".{name}")

    def defined(self, crate: str, module: str, file: File, name: str) -> tuple[Piece, ...] | None:
        """What a file of specs/ defines or gives on by a name."""
        if name in file.definitions:
            return (Reference(crate, module, name),)
        if name in file.constructors:
            return (Reference(crate, module, file.constructors[name]), f".{name}")
        if name in file.imports and file.imports[name].is_public:
            return self.imported(file.imports[name])
        return None


def parts_of(names: Iterable[str]) -> dict[str, list[str]]:
    """The operators among some names, by each of the signs that they are made of: two operators may share a sign."""
    found: defaultdict[str, list[str]] = defaultdict(list)
    for name in sorted(names):
        for part in {part for part in name.split("◌") if part} if "◌" in name else ():
            found[part].append(name)
    return found


class FileScope:
    """What the names of a file of specs/ are."""

    def __init__(self, tree: Tree, crate: str, module: str) -> None:
        self.tree, self.crate, self.module = tree, crate, module
        self.file = tree.crates[crate].files[module]
        self.parts = parts_of((*self.file.imports, *self.file.definitions))

    def pieces(self, name: str) -> tuple[Piece, ...] | None:
        """What a name is; None if it is nothing that the file imports or defines. A sign is all operators that have it."""
        found: list[Piece] = []
        for one in [name] if name in self.file.definitions else self.parts.get(name.strip("◌"), [name]):
            known = self.tree.defined(self.crate, self.module, self.file, one)
            if known is None and one in self.file.imports:
                known = self.tree.imported(self.file.imports[one])
            found += known or ()
        return tuple(found) or None

    def member(self, name: str, member: str) -> tuple[Piece, ...] | None:
        """What a name in a module is; None if there is no such module."""
        line = self.file.imports.get(MODULE + name)
        return None if line is None else self.tree.imported(line, member)

    def is_constructor(self, name: str) -> bool:
        """Whether a name in a pattern is a constructor and binds no variable."""
        if name in self.parts:
            return True
        found = self.pieces(name)
        return found is not None and (len(found) == 2 or isinstance(found[0], str))


class ClauseScope:
    """What the names in a clause are, or in a ghost member: what its file imports for it, what src/ has, and members of its trait."""

    def __init__(self, tree: Tree, crate: str, source: Source, imports: Mapping[str, Import], owner: Reference | None) -> None:
        self.tree, self.crate, self.source, self.imports, self.owner = tree, crate, source, imports, owner
        self.parts = parts_of(imports)

    def pieces(self, name: str) -> tuple[Piece, ...] | None:
        """What a name is; None if it is nothing that the file knows."""
        if name.startswith("⟦<"):
            return tuple(piece for word in re.findall(r"\w+", name) for piece in self.pieces(word) or (word,))
        if operators := [one for one in self.parts.get(name.strip("◌"), [name]) if one in self.imports]:
            return tuple(piece for one in operators for piece in self.tree.imported(self.imports[one]))
        if name == "Self" and self.owner is not None:
            return (self.owner,)
        found = self.tree.used(self.crate, self.source, name)
        if found is None and self.owner is not None:
            found = self.tree.member(self.owner, name)
        return None if found is None else (found,)

    def at_path(self, path: Sequence[str]) -> tuple[Piece, ...] | None:
        """What a path of src/ is; None if it is nothing of this repository."""
        found = self.tree.at_path(self.crate, self.source, path)
        return None if found is None else (found,)

    def member(self, name: str, member: str) -> tuple[Piece, ...] | None:
        """What a name in a module is, or a ghost member of a type; None if it is neither."""
        if MODULE + name in self.imports:
            return self.tree.imported(self.imports[MODULE + name], member)
        found = self.pieces(name)
        if found is None or not isinstance(found[0], Reference):
            return None
        held = self.tree.member(found[0], member)
        return None if held is None else (*found, f".{member}", held)

    def is_constructor(self, name: str) -> bool:
        """Whether a name in a pattern is a constructor and binds no variable."""
        found = self.pieces(name)
        return name in self.parts or (found is not None and (len(found) == 2 or isinstance(found[0], str)))
