"""The recipes of `docs/ARCHITECTURE.md`: that the files and names are there that each of them says a change touches."""

import re
import shlex
import subprocess
import unittest
from collections.abc import Iterable, Iterator
from functools import cache
from pathlib import Path
from typing import NamedTuple

from corpus import TOP

CRATES = Path(TOP, "crates")
PAGE = Path(TOP, "docs", "ARCHITECTURE.md")
PARTS = ("src", "specs", "proofs")
PLACEHOLDERS = ("NAME", "TAG")


class Example(NamedTuple):
    """What was added once as a recipe says, and so stands in each file that the recipe has to name."""

    heading: str
    mention: str
    """A regular expression of its names."""
    crates: tuple[str, ...] = ()
    """Crates that the recipe leaves open."""
    folders: tuple[str, ...] = ("crates",)
    uses: tuple[str, ...] = ()
    """Files that have it for what it is used for, and would not have another one."""


VALUE_OR_TAG = "How a value or a tag is added"
EVIDENCE = r"use [^{]*evidence_format[^{]*\{[^}]*\bcounter\b|\bCounter\b|codes \"counter"
EXAMPLES = (
    Example("How a command is added", r"\b(R|r)enew(ed|_\w+)?\b|RenewFileQuery", crates=("evidence_answers",)),
    Example("How a relation is added", "DuringInv|DURING_INV|during_inv"),
    Example("How a limit is changed", "MAX_IDENTIFIER|is_id_len"),
    Example("How an attribute is added", "anchorTimeID|anchor_time"),
    Example(VALUE_OR_TAG, "Timex3Interval|TIMEX3INTERVAL"),
    Example(VALUE_OR_TAG, r"\bSignal\b|SIGNAL\b|\bsignals\b"),
    Example(
        "How a kind of evidence is added",
        EVIDENCE,
        uses=(
            "net_answers/proofs/Sizes.antt", "order_answers/src/ask/deciding.rt", "order_answers/specs/Ask.antt",
            "order_answers/proofs/Fitting.antt", "order_answers/proofs/OneCounterexample.antt",
            "order_answers/proofs/Counterexamples.antt", "tml_tool/proofs/TwoRuns.antt",
        ),
    ),
    Example(
        "How a warning of `tml-corpus check --lint` is added",
        "opposed-instances|opposed_instances",
        folders=("python", "tools", "docs"),
    ),
    Example("How an option of `tml-corpus check` is added", r"--strict\b|options\.strict", folders=("python/src", "tools", "docs")),
)  # fmt: skip


def recipes_of(page: str) -> dict[str, list[str]]:
    """What stands between backquotes in each section that says how something is added or changed, by its heading."""
    sections = (section.split("\n", 1) for section in page.split("\n## ")[1:])
    return {heading: re.findall(r"`([^`]+)`", " ".join(text.split())) for heading, text in sections if heading.startswith("How ")}


def pattern_of(path: str) -> str:
    """The path with `*` for what stands for any name."""
    return re.sub("|".join(PLACEHOLDERS), "*", path)


def crates_of(marked: list[str]) -> list[Path]:
    """The crates that a recipe names."""
    return [CRATES / name for name in dict.fromkeys(word.split("/")[0] for word in marked) if (CRATES / name).is_dir()]


def finds(folder: Path, path: str) -> bool:
    """Whether a folder has this path: a file, one of definitions or proofs, whose ending is left out, or a folder."""
    return any(True for ending in ("", ".antt") for _ in folder.glob(pattern_of(path) + ending))


def is_there(path: str, crates: list[Path]) -> bool:
    """Whether a path that a recipe names is in one of its crates, there among the proofs, or in the repository."""
    if path.split("/")[0] in PARTS:
        return any(finds(crate, path) for crate in crates)
    return finds(CRATES, path) or finds(Path(TOP), path) or any(finds(crate / "proofs", path) for crate in crates)


def files_named(marked: list[str], crates: list[Path]) -> set[Path]:
    """The files that a recipe names: paths, definitions and proofs by their names alone, and all files of folders."""
    paths = {path for word in marked for path in ([pattern_of(word)] if "/" in word else [f"specs/{word}", f"proofs/{word}"])}
    bases = [*crates, *(crate / "proofs" for crate in crates), CRATES, Path(TOP)]
    found = {file for path in paths if " " not in path for base in bases for end in ("", ".antt") for file in base.glob(path + end)}
    return found | {file for folder in found if folder.is_dir() for file in folder.rglob("*")}


def files_with(mention: str, folders: Iterable[str]) -> set[Path]:
    """The files of some folders that have a mention; not those that were built, nor wrong bodies, which test_wrong_bodies.py names."""
    endings = ("*.rt", "*.antt", "*.edit", "stdin", "*.py", "*.md", "*.1", "*.bash")
    options = [*(f"--include={ending}" for ending in endings), "--exclude-dir=out", "--exclude-dir=wrong"]
    found = subprocess.run(["grep", "-rlE", *options, "-e", mention, *folders], cwd=TOP, stdout=subprocess.PIPE, text=True, check=True)
    return {Path(TOP, line) for line in found.stdout.splitlines()}


@cache
def words_of_crates() -> frozenset[str]:
    """All words of the sources, definitions and proofs of the crates."""
    files = (file for part in PARTS for file in CRATES.glob(f"*/{part}/**/*") if file.suffix in (".rt", ".antt"))
    return frozenset(word for file in files for word in re.findall(r"\w+", file.read_text(encoding="utf-8")))


def names_of(marked: list[str]) -> Iterator[str]:
    """The names of items that a recipe has: words, perhaps with the type that they belong to."""
    for word in marked:
        if re.fullmatch(r"[A-Za-z_]\w+(?:::\w+)?", word) and not any(name in word for name in PLACEHOLDERS):
            yield from word.split("::")


class Recipes(unittest.TestCase):
    recipes = recipes_of(PAGE.read_text(encoding="utf-8"))

    def test_there_are_recipes(self) -> None:
        self.assertGreaterEqual(len(self.recipes), 7)

    def test_paths_are_there(self) -> None:
        for heading, marked in self.recipes.items():
            crates = crates_of(marked)
            for path in (word for word in marked if "/" in word and " " not in word):
                with self.subTest(heading, path=path):
                    self.assertTrue(is_there(path, crates))

    def test_names_are_there(self) -> None:
        for heading, marked in self.recipes.items():
            for name in names_of(marked):
                with self.subTest(heading, name=name):
                    of_crates = name in words_of_crates() or (CRATES / name).is_dir()
                    self.assertTrue(of_crates or self.finds(["grep", "-rqw", name, "python", "tools"]))

    def test_searches_find_files(self) -> None:
        for heading, marked in self.recipes.items():
            for command in (word for word in marked if word.startswith("grep ")):
                with self.subTest(heading, command=command):
                    self.assertIn("python", shlex.split(command), "the code of the companions lies there")
                    self.assertTrue(self.finds(shlex.split(command)))

    def test_all_files_of_an_example_are_named(self) -> None:
        for heading, mention, more, folders, uses in EXAMPLES:
            marked = self.recipes[heading]
            named = files_named(marked, crates_of(marked + list(more)))
            for command in (word for word in marked if word.startswith("grep ")):
                named |= {Path(TOP, file) for file in self.lines(shlex.split(command))}
            for file in sorted(files_with(mention, folders) - named - {CRATES / use for use in uses} - {Path(__file__)}):
                with self.subTest(heading, file=file.relative_to(TOP)):
                    self.fail("the recipe does not name it")

    def test_what_is_gone_is_missed(self) -> None:
        crates = crates_of(["net_core"])
        self.assertTrue(is_there("specs/Rels", crates))
        self.assertFalse(is_there("specs/Gone", crates))
        self.assertFalse(is_there("src/gone.rt", crates))
        self.assertFalse(is_there("net_core/specs/Gone", crates))

    def test_what_is_not_named_is_missed(self) -> None:
        named = files_named(["specs/Rels", "Atoms", "src/*.rs"], crates_of(["net_core"]))
        self.assertEqual({file.name for file in named}, {"Rels.antt", "Atoms.antt"})
        self.assertLessEqual({CRATES / "net_core/src/rels.rt"}, files_with("DURING_INV", ["crates"]) - named)

    def lines(self, command: list[str]) -> list[str]:
        """What a search prints."""
        return subprocess.run(command, cwd=TOP, stdout=subprocess.PIPE, text=True, check=True).stdout.splitlines()

    def finds(self, command: list[str]) -> bool:
        """Whether a search finds anything in the repository."""
        return subprocess.run(command, cwd=TOP, stdout=subprocess.DEVNULL, check=False).returncode == 0


if __name__ == "__main__":
    unittest.main()
