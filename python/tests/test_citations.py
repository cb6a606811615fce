"""The pages `docs/COMMANDS.md`, `docs/PROVED.md` and `docs/CHECKER.md`: that what they cite of the crates is there.

Clauses are cited as "`function`: `clause` in `crate/src/file.rt`", where a function alone stands for its clause without a name;
definitions as "`crate/specs/File`: `name`", and whole files of them as "`crate/specs`: `File`"; laws as "law `function` of `crate`", and
other public items so without "law". A crate may be left out in a section whose head names one crate alone, and in a column of a table
what its head says: the file, or the function too.
"""

import re
import unittest
from collections import defaultdict
from collections.abc import Collection, Iterable, Iterator
from dataclasses import dataclass, field, replace
from functools import cache
from pathlib import Path

from corpus import TOP

CRATES = Path(TOP, "crates")
PAGES = {name: Path(TOP, "docs", name).read_text(encoding="utf-8") for name in ("COMMANDS.md", "PROVED.md", "CHECKER.md")}

NAMES = r"`[\w:]+`(?:(?:, | and )`[\w:]+`)*"
CALL = rf"{NAMES}(?:: {NAMES})?"
NUMBERED = r"`\w+`(?: \d+)?"
FILE = r" in `(?P<file>[\w/]+\.rt)`"
LAWS = rf"laws? (?P<laws>{CALL})(?: of `(?P<crate_of_laws>\w+)`)?"
DEFINITIONS = rf"`(?P<specs>(?:\w+/)?specs(?:/\w+)?)`: (?P<definitions>{NUMBERED}(?:, {NUMBERED})*)(?: and what it names(?: \d+)?)?"
ITEMS = rf"(?P<items>{NAMES}) of `(?P<crate_of_items>\w+)`"
CALLS = rf"(?P<calls>{CALL}(?:; {CALL})*)"
IN_TEXT = re.compile(f"{LAWS}|{DEFINITIONS}|{ITEMS}|{CALLS}{FILE}")
IN_COLUMN = re.compile(f"{LAWS}|{DEFINITIONS}|{ITEMS}|{CALLS}(?:{FILE})?")
HOME = re.compile(rf"(?: of `(?P<function>[\w:]+)`)?{FILE}")


class NotThere(Exception):
    """What is cited is not there; the message says what."""


# The sources.


@dataclass
class Item:
    """A public function, type or variant of one: the names of its clauses, of which "" stands for one without a name."""

    file: str
    clauses: set[str] = field(default_factory=set)
    is_law: bool = False


def items_of(file: str, text: str) -> dict[str, Item]:
    """The public items in the text of a source, by their names, those of a type or a trait after its own: `Type::name`.

    A law is a function that does nothing, or nothing but call a law of its type parameter.
    """
    items: dict[str, Item] = {}
    kind, owner, item = "", "", Item(file)
    for line in text.splitlines():
        if line.startswith("}"):
            kind, owner = "", ""
        elif block := re.match(r"(?:pub )?(impl|trait|enum|struct|const|type)\b(?:<[^>]*>)? ?(\w+(?:<.*?>)? for )?(\w+)", line):
            if line.startswith("pub "):
                items[block[3]] = Item(file, {""})
            if line.endswith("{"):
                kind, owner = "trait" if block[2] else block[1], f"{block[3]}::"
        elif function := re.match(r" *(pub(?:\(crate\))? )?(?:extern \"C\" )?fn (\w+)", line):
            item = Item(file)
            if function[1] == "pub " or kind == "trait":
                items[owner + function[2]] = item
        elif clause := re.match(r" +ensures (?:(\w+) )?\{", line):
            item.clauses.add(clause[1] or "")
        elif line == "{}" or re.fullmatch(r"    [A-Z]::\w+\(\);", line):
            item.is_law = True
        elif kind == "trait" and (law := re.match(r"    ghost (\w+): \{", line)):
            items[owner + law[1]] = Item(file, {""}, is_law=True)
        elif kind == "enum" and (variant := re.match(r"    ([A-Z]\w*)", line)):
            items[owner + variant[1]] = Item(file, {""})
    return items


@cache
def public_items(crate: str) -> dict[str, Item]:
    """The public items of a crate, by their names: those that its `lib.rt` has, or takes from its modules, and of a program all."""
    sources = CRATES / crate / "src"
    is_program = (sources / "main.rt").is_file()
    if not (is_program or (sources / "lib.rt").is_file()):
        raise NotThere(f"no crate `{crate}`")
    top = "" if is_program else (sources / "lib.rt").read_text(encoding="utf-8")
    taken = re.findall(r"pub use (\w+)::(?:\w+::)*(\{[^}]*\}|\w+);", top)
    module_of = {name: module for module, names in taken for name in re.findall(r"\w+", names)}
    public = {}
    for path in sources.rglob("*.rt"):
        module = path.relative_to(sources).parts[0].removesuffix(".rt")
        is_open = is_program or module == "lib" or f"pub mod {module};" in top
        for name, item in items_of(path.relative_to(sources).as_posix(), path.read_text(encoding="utf-8")).items():
            owner, _, member = name.partition("::")
            if is_open or module_of.get(owner) == module or member and owner in module_of:
                public[name] = item
    return public


@cache
def definitions(crate: str, file: str) -> set[str]:
    """The names that a file of definitions defines."""
    path = CRATES / crate / "specs" / f"{file}.antt"
    if not path.is_file():
        raise NotThere(f"no file `{crate}/specs/{file}`")
    names: set[str] = set()
    together = False
    for line in path.read_text(encoding="utf-8").splitlines():
        if re.match(r"\w", line):
            together = line == "abbrev mutual"
        indent = "  " if together else ""
        if name := re.match(indent + r"(?:abbrev |unfoldable )?pub (?:record |data )?(\w+)", line):
            names.add(name[1])
    return names


@cache
def known_names() -> set[str]:
    """The names of all definitions and public items that cannot be words of a text: they have a capital or an underscore."""
    specs = [definitions(path.parts[-3], path.stem) for path in CRATES.glob("*/specs/*.antt")]
    items = [public_items(path.parts[-3]) for path in CRATES.glob("*/src/lib.rt")]
    return {name for name in set[str]().union(*specs, *items) if re.search(r"[A-Z_]", name)}


# The pages.


@dataclass(frozen=True)
class Block:
    """A paragraph or a cell of a page, from a line on: whether it must be citations alone, and what these may leave out."""

    line: int
    text: str
    crate: str | None
    is_column: bool = False
    homes: tuple[tuple[str | None, str], ...] = ()

    def line_at(self, place: int) -> int:
        """The line of a place in the text."""
        return self.line + self.text.count("\n", 0, place)


def names_in(text: str | None) -> tuple[str, ...]:
    """The names that stand in code."""
    return tuple(re.findall(r"`([\w:]+)`", text or ""))


def blocks_of(page: str) -> Iterator[Block]:
    """The paragraphs and the cells of a page."""
    crate: str | None = None
    heads: list[str] | None = None
    paragraph: list[str] = []
    for number, line in enumerate([*page.splitlines(), ""], 1):
        if paragraph and (not line or line.startswith(("|", "#", "- "))):
            yield Block(number - len(paragraph), "\n".join(paragraph), crate)
            paragraph = []
        if not line.startswith("|"):
            heads = None
        cells = [cell.strip() for cell in line.removeprefix("|").removesuffix("|").split("|")]
        if line.startswith("#"):
            crates = [name for name in names_in(line.partition(":")[2]) if (CRATES / name).is_dir()]
            crate = crates[0] if len(crates) == 1 else None
        elif not line.startswith("|"):
            paragraph += [line.strip()] if line else []
        elif heads is None:
            heads = cells
        elif not line.startswith("|---"):
            for head, cell in zip(heads, cells, strict=True):
                yield Block(number, cell, crate, bool(re.match("clause|definition|law", head)), tuple(HOME.findall(head)))


# What they cite.


def crate_and_file(path: str, folder: str, crate: str | None) -> tuple[str, str]:
    """The crate and the file of a path over a folder of a crate; a path without a crate is one of this crate."""
    before, _, file = path.rpartition(f"{folder}/")
    found = before.rstrip("/") or crate
    if found is None:
        raise NotThere(f"no crate with `{path}`")
    return found, file


def check_items(crate: str, names: Iterable[str], clauses: Collection[str], is_law: bool = False, file: str | None = None) -> None:
    """Checks that public items of a crate are there, with these clauses, and in this file where one is given."""
    for name in names:
        item = public_items(crate).get(name)
        if item is None or is_law and not item.is_law:
            raise NotThere(f"no public {'law' if is_law else 'item'} `{name}` in `{crate}`")
        if file is not None and item.file != file:
            raise NotThere(f"no `{name}` in `{crate}/src/{file}`")
        for clause in clauses:
            if clause not in item.clauses:
                raise NotThere(f"`{name}` has no clause `{clause}`" if clause else f"`{name}` has no clause without a name")


def cite_calls(block: Block, calls: str, function: str | None, path: str) -> Iterator[tuple[str, str]]:
    """Checks clauses of functions in a file, or of a function that the citations leave out, and answers each function with its crate."""
    crate, file = crate_and_file(path, "src", block.crate)
    if not (CRATES / crate / "src" / file).is_file():
        raise NotThere(f"no file `{crate}/src/{file}`")
    for call in calls.split("; "):
        functions, clauses = map(names_in, call.partition(": ")[::2])
        if function:
            functions, clauses = (function,), functions
        check_items(crate, functions, clauses or ("",) * block.is_column, file=file)
        yield from ((function, crate) for function in functions)


def cite_definitions(block: Block, path: str, names: Iterable[str]) -> Iterator[tuple[str, str]]:
    """Checks definitions in a file, and answers each with its place; or checks files in a folder."""
    crate, file = crate_and_file(path if "specs/" in path else f"{path}/", "specs", block.crate)
    for name in names:
        if not file:
            definitions(crate, name)
        elif name in definitions(crate, file):
            yield name, f"{crate}/specs/{file}"
        else:
            raise NotThere(f"no `{name}` in `{crate}/specs/{file}`")


def cite_items(block: Block, items: str, crate: str | None, is_law: bool) -> list[tuple[str, str]]:
    """Checks public items of a crate, and answers each with its place."""
    if crate is None:
        raise NotThere(f"no crate with {items}")
    names, clauses = map(names_in, items.partition(": ")[::2])
    check_items(crate, names, clauses, is_law)
    return [(name, crate) for name in names]


def cite(block: Block, found: re.Match[str]) -> Iterable[tuple[str, str]]:
    """Checks a citation, and answers the names that it cites, each with its place."""
    if found["specs"]:
        return cite_definitions(block, found["specs"], names_in(found["definitions"]))
    if found["laws"]:
        return cite_items(block, found["laws"], found["crate_of_laws"] or block.crate, is_law=True)
    if found["items"]:
        return cite_items(block, found["items"], found["crate_of_items"], is_law=False)
    homes: Iterable[tuple[str | None, str]] = [("", found["file"])] if found["file"] else block.homes
    if not homes:
        raise NotThere(f"no file with {found[0]}")
    return [cited for function, path in homes for cited in cite_calls(block, found["calls"], function, path)]


class Citations:
    """The citations of a page."""

    def __init__(self, page: str = "") -> None:
        self.wrong: list[tuple[int, str]] = []
        """What is wrong, each with its line."""
        self.rows: set[int] = set()
        """The lines of rows with citations."""
        self.places: defaultdict[str, set[str]] = defaultdict(set)
        """The places of each name that is cited: a crate, or a file of definitions."""
        self.left: list[tuple[int, str]] = []
        """The names in code that stand in no citation, each with its line."""
        for block in blocks_of(page):
            self.take(block)

    def take(self, block: Block) -> None:
        """Takes the citations of a block."""
        pattern = IN_COLUMN if block.is_column else IN_TEXT
        text = block.text.replace("\n", " ")
        for found in pattern.finditer(text):
            try:
                for name, place in cite(block, found):
                    self.places[name].add(place)
            except NotThere as error:
                self.wrong.append((block.line_at(found.start()), str(error)))
        rest = pattern.sub(lambda found: " " * len(found[0]), text)
        self.left += [(block.line_at(name.start()), name[1]) for name in re.finditer(r"`([\w:]+)`", rest)]
        for path in re.finditer(r"`(\w+/(?:src|specs)/[\w/.]+)`", rest):
            if not any((CRATES / f"{path[1]}{ending}").is_file() for ending in ("", ".antt")):
                self.wrong.append((block.line_at(path.start()), f"no file `{path[1]}`"))
        if block.is_column:
            words = rest.replace(";", " ").split()
            if words and not (words == ["the", "same"] and block.line - 1 in self.rows) or not text:
                self.wrong.append((block.line, f"no citation: {' '.join(words)}"))
            self.rows.add(block.line)

    def unclear(self) -> Iterator[tuple[int, str]]:
        """The names of the crates that stand in no citation, and are cited nowhere else on the page or in several places, with their lines.
        A name of a type or a trait, `Type::name`, is cited where the type is."""
        for line, name in self.left:
            places = len(self.places[name.partition("::")[0]])
            if name in known_names() and places != 1:
                yield line, f"`{name}` is cited in {places} places"
            elif "::" in name and name not in known_names():
                yield line, f"no `{name}` in any crate"


# The tests.


def with_lines(name: str, problems: Iterable[tuple[int, str]]) -> list[str]:
    """Problems of a page, as they are printed."""
    return [f"docs/{name}:{line}: {problem}" for line, problem in problems]


class Pages(unittest.TestCase):
    def test_what_is_cited_is_there(self) -> None:
        for name, page in PAGES.items():
            with self.subTest(name):
                self.assertEqual(with_lines(name, Citations(page).wrong), [])

    def test_each_row_of_what_is_proved_has_a_citation(self) -> None:
        count = 0
        for name, head in (("PROVED.md", ""), ("COMMANDS.md", r"\| definition \|")):
            tables = re.findall(rf"^\|.*{head}\n\|---.*\n((?:\|.*\n)+)", PAGES[name], re.MULTILINE)
            rows = [row for table in tables for row in table.splitlines()]
            self.assertEqual(len(Citations(PAGES[name]).rows), len(rows), name)
            count += len(rows)
        self.assertGreater(count, 200)

    def test_names_of_the_checker_are_clear(self) -> None:
        self.assertEqual(with_lines("CHECKER.md", Citations(PAGES["CHECKER.md"]).unclear()), [])


class Sources(unittest.TestCase):
    def test_all_that_a_crate_takes_from_its_modules_is_read(self) -> None:
        for path in CRATES.glob("*/src/lib.rt"):
            top = path.read_text(encoding="utf-8")
            taken = {
                name
                for module, names in re.findall(r"pub use (\w+)::(?:\w+::)*(\{[^}]*\}|\w+);", top)
                if f"mod {module};" in top
                for name in re.findall(r"\w+", names)
            }
            self.assertLessEqual(taken, set(public_items(path.parts[-3])), path)


class WrongCitations(unittest.TestCase):
    """What is not there is found, with its line."""

    def wrong(self, text: str) -> list[tuple[int, str]]:
        """What is wrong in a page."""
        return Citations(text).wrong

    def assert_wrong(self, cell: str, problem: str, head: str = "clause") -> None:
        """Checks what is wrong with the second row of a table, of which the first one is right."""
        table = f"# A page\n\n| claim | {head} |\n|---|---|\n| right | law `one_verdict` of `evidence_check` |\n| wrong | {cell} |\n"
        with self.subTest(cell):
            self.assertEqual(self.wrong(table), [(6, problem)])

    def test_functions_and_clauses(self) -> None:
        self.assert_wrong("`verify`: `ok`, `sond` in `evidence_check/src/checker.rt`", "`verify` has no clause `sond`")
        self.assert_wrong("`verify` in `evidence_check/src/checker.rt`", "`verify` has no clause without a name")
        self.assert_wrong("`verify`: `ok` in `evidence_check/src/body.rt`", "no `verify` in `evidence_check/src/body.rt`")
        self.assert_wrong("`verify`: `ok` in `evidence_check/src/check.rt`", "no file `evidence_check/src/check.rt`")
        self.assert_wrong("`verify`: `ok` in `evidence/src/checker.rt`", "no file `evidence/src/checker.rt`")
        self.assert_wrong("`verify`: `ok` in `checker.rt`", "no crate with `checker.rt`")
        self.assert_wrong("`verify`: `ok`", "no file with `verify`: `ok`")
        self.assert_wrong("`Closed::copi` in `order_closure/src/table.rt`", "no public item `Closed::copi` in `order_closure`")

    def test_functions_that_are_not_public(self) -> None:
        self.assert_wrong("`document_of`: `ok` in `answers/src/judged.rt`", "no public item `document_of` in `answers`")
        self.assert_wrong("`components_of` in `net_orders/src/components.rt`", "no public item `components_of` in `net_orders`")
        self.assert_wrong("`BaseSet::none` in `tml_possible/src/base_set.rt`", "no public item `BaseSet::none` in `tml_possible`")

    def test_columns_that_name_a_function_or_a_file(self) -> None:
        head = "clause of `verify` in `evidence_check/src/checker.rt`"
        self.assert_wrong("`ok`, `sond`", "`verify` has no clause `sond`", head)
        self.assert_wrong("`verify`: `ok`", "`verify` has no clause `verify`", head)
        head = "clause in `evidence_check/src/checker.rt`"
        self.assert_wrong("`verify_all`: `ok`", "no `verify_all` in `evidence_check/src/checker.rt`", head)
        both = "clause of `verify_body` in `evidence_check/src/body.rt` and of `verify` in `evidence_check/src/checker.rt`"
        self.assert_wrong("`follows`", "`verify_body` has no clause `follows`", both)

    def test_laws_and_other_items(self) -> None:
        self.assert_wrong("law `one_verdicts` of `evidence_check`", "no public law `one_verdicts` in `evidence_check`")
        self.assert_wrong("law `verify` of `evidence_check`", "no public law `verify` in `evidence_check`")
        self.assert_wrong("laws `one_verdict`, `one_cut` of `evidence_check`", "no public law `one_cut` in `evidence_check`")
        self.assert_wrong("law `one_text`: `text` of `evidence_format`", "`one_text` has no clause `text`")
        self.assert_wrong("law `one_verdict`", "no crate with `one_verdict`")
        self.assert_wrong("`Claims` of `evidence_check`", "no public item `Claims` in `evidence_check`")
        self.assert_wrong("`Claim` of `evidence`", "no crate `evidence`")

    def test_definitions(self) -> None:
        self.assert_wrong("`evidence_check/specs/Claims`: `claim_of`, `ShowTruth`", "no `ShowTruth` in `evidence_check/specs/Claims`")
        self.assert_wrong("`evidence_check/specs/Claim`: `ShowsTruth`", "no file `evidence_check/specs/Claim`")
        self.assert_wrong("`evidence_check/specs`: `Claims` 10, `Claim` 2", "no file `evidence_check/specs/Claim`")
        self.assert_wrong("`specs/Claims`: `ShowsTruth`", "no crate with `specs/Claims`")

    def test_cells_without_a_citation(self) -> None:
        self.assert_wrong("", "no citation: ")
        self.assert_wrong("its clause", "no citation: its clause")
        self.assert_wrong("the same, and more", "no citation: the same, and more")
        self.assert_wrong("law `one_verdict` of `evidence_check`, and more", "no citation: , and more")
        self.assertEqual(self.wrong("| claim | law |\n|---|---|\n| x | the same |\n"), [(3, "no citation: the same")])

    def test_text(self) -> None:
        text = "# A page\n\n- The law\n  `one_verdicts` of\n  `evidence_check`.\n- And `evidence_check/src/check.rt`.\n"
        self.assertEqual(
            self.wrong(text), [(3, "no public law `one_verdicts` in `evidence_check`"), (6, "no file `evidence_check/src/check.rt`")]
        )

    def test_names_that_are_not_clear(self) -> None:
        text = "`tml_tree/specs/Whole`: `kind_and_place`\n`kind_and_place` `Claim` `ShowsTruth`\n"
        text += "`Claim` of `evidence_check`, `Claim::Fitz`\n"
        self.assertEqual(list(Citations(text).unclear()), [(2, "`ShowsTruth` is cited in 0 places"), (3, "no `Claim::Fitz` in any crate")])
        again = f"{text}`tml_types/specs/Whole`: `kind_and_place`\n"
        self.assertIn((2, "`kind_and_place` is cited in 2 places"), Citations(again).unclear())

    def test_each_name_in_a_citation_counts(self) -> None:
        """Whichever name in a citation on the pages is another one, that is found."""
        for name, page in PAGES.items():
            for block in blocks_of(page):
                for found in (IN_COLUMN if block.is_column else IN_TEXT).finditer(block.text.replace("\n", " ")):
                    for code in re.finditer(r"(?<=[\w])`", found[0]):
                        place = found.start() + code.start()
                        changed = Citations()
                        changed.take(replace(block, text=f"{block.text[:place]}x{block.text[place:]}"))
                        self.assertTrue(changed.wrong, f"{name}:{block.line}: {block.text[: place + 1]}")


if __name__ == "__main__":
    unittest.main()
