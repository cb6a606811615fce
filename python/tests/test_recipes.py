"""The commands of README.md and of pages of docs, run as they are written, and what they print.

A block marked `console` has lines `$ command`, lines `> ..` that go on with one, and after each command what it prints,
standard error included. A line `...` stands for any lines. The blocks of a section (from one heading `##` to the next) go
to one shell, whose folder has a copy of `samples`, `tools` and `python` and nothing else; `tml` is on its PATH. A block marked
`make` is the file `Makefile` of that folder.
"""

import os
import re
import shlex
import shutil
import subprocess
import tempfile
import unittest
from collections.abc import Sequence
from dataclasses import dataclass, field
from pathlib import Path

from corpus import TML, TOP, text_at
from processes import BARE

PAGES = ("README.md", *(f"docs/{name}.md" for name in ("AGREEMENT", "CLASHES", "CORPORA", "FOLDER", "QUESTIONS", "TOUR")))
NEEDED = ("perl", "iconv", "make", "xmllint", "sha256sum", "diff", "git")
MARK = "the-end-of-command"


@dataclass
class Command:
    """A command, the line of the page where it stands, and the lines that it is to print."""

    line: int
    text: str
    printed: list[str] = field(default_factory=list)


@dataclass
class Section:
    """The commands of a section, and its Makefile if it has one."""

    title: str
    commands: list[Command] = field(default_factory=list)
    makefile: str | None = None


def sections_of(page: str) -> list[Section]:
    """The sections of a page that have commands."""
    sections = [Section("beginning")]
    block: str | None = None
    for number, line in enumerate(page.splitlines(), 1):
        if block is None and line.startswith("## "):
            sections.append(Section(line[3:]))
        elif line.startswith("```"):
            block = None if block is not None else line[3:].strip()
            if block == "make":
                sections[-1].makefile = ""
        elif block == "make":
            sections[-1].makefile = (sections[-1].makefile or "") + line + "\n"
        elif block == "console":
            add_line(sections[-1].commands, number, line)
    return [section for section in sections if section.commands]


def add_line(commands: list[Command], number: int, line: str) -> None:
    """One line of a block: a command, its continuation, or what is printed."""
    if line.startswith("$ "):
        commands.append(Command(number, line[2:]))
    elif line.startswith("> ") and not commands[-1].printed:
        commands[-1].text += "\n" + line[2:]
    else:
        commands[-1].printed.append(line)


def agree(expected: Sequence[str], printed: Sequence[str]) -> bool:
    """Whether the lines are those that are expected, where `...` stands for any, and at the end of a line for the rest of it."""
    pattern = "".join(
        "(?:.*\n)*?" if line == "..." else re.escape(line).removesuffix(r"\.\.\.") + r".*" * line.endswith("...") + "\n"
        for line in expected
    )
    return re.fullmatch(pattern, "".join(line + "\n" for line in printed)) is not None


@unittest.skipUnless(os.access(TML, os.X_OK), f"no program {TML}: build it as README.md says, or name one by TML=PROGRAM")
class RecipeTest(unittest.TestCase):
    """A test that runs the commands of a page."""

    top: str
    environment: dict[str, str]

    @classmethod
    def setUpClass(cls) -> None:
        held = tempfile.TemporaryDirectory()
        cls.addClassCleanup(held.cleanup)
        cls.top = held.name
        programs = os.path.join(cls.top, "bin")
        os.mkdir(programs)
        os.symlink(os.path.abspath(TML), os.path.join(programs, "tml"))
        python = Path(programs, "python3")
        python.write_text(f'#!/bin/sh\nexec {shlex.join(BARE)} "$@"\n', encoding="utf-8")
        python.chmod(0o755)
        # The copies have the same path in each section, so that their modules are compiled once.
        others = {name: value for name, value in os.environ.items() if name != "PYTHONDONTWRITEBYTECODE"}
        bytecode = others.get("PYTHONPYCACHEPREFIX", os.path.join(cls.top, "bytecode"))
        own = {"PATH": programs + os.pathsep + os.environ["PATH"], "LC_ALL": "C.UTF-8", "PYTHONPYCACHEPREFIX": bytecode}
        cls.environment = {**others, **own}

    def make_folder(self, folder: str, makefile: str | None) -> None:
        """Makes the folder of a section anew."""
        shutil.rmtree(folder, ignore_errors=True)
        shutil.copytree(os.path.join(TOP, "samples"), os.path.join(folder, "samples"))
        for name in ("tools", "python"):
            ignored = shutil.ignore_patterns("test_*.py", "__pycache__")
            shutil.copytree(os.path.join(TOP, name), os.path.join(folder, name), ignore=ignored)
        if makefile is not None:
            with open(os.path.join(folder, "Makefile"), "w", encoding="utf-8") as file:
                file.write(makefile)

    def run_section(self, section: Section) -> list[list[str]]:
        """Runs the commands of a section in one shell, and answers what each of them printed."""
        folder, path = os.path.join(self.top, "here"), os.path.join(self.top, "script")
        self.make_folder(folder, section.makefile)
        # After each command a line with the mark, and the status is again that of the command.
        script = "".join(f"{command.text}\nmark=$?; echo {MARK}; (exit $mark)\n" for command in section.commands)
        with open(path, "w", encoding="utf-8") as file:
            file.write(script)
        done = subprocess.run(
            ["sh", path],
            cwd=folder,
            env=self.environment,
            stdin=subprocess.DEVNULL,
            stdout=subprocess.PIPE,
            stderr=subprocess.STDOUT,
            timeout=300,
            check=False,
        )
        return [part.splitlines() for part in done.stdout.decode("utf-8", "replace").split(MARK + "\n")][:-1]

    def check_section(self, name: str, section: Section) -> None:
        """Checks what the commands of a section print."""
        words = " ".join(command.text for command in section.commands)
        for program in NEEDED:
            if re.search(rf"\b{program}\b", words) and shutil.which(program) is None:
                self.skipTest(f"no program {program}")
        printed = self.run_section(section)
        self.assertEqual(len(printed), len(section.commands), printed[-1:])
        for command, lines in zip(section.commands, printed, strict=True):
            place = f"{name}:{command.line}"
            self.assertTrue(
                agree(command.printed, lines), "\n".join([f"{place}: {command.text}", "expected:", *command.printed, "printed:", *lines])
            )


class Pages(RecipeTest):
    def test_commands_print_what_the_page_says(self) -> None:
        for name in PAGES:
            sections = sections_of(text_at(name))
            self.assertTrue(sections, name)
            for section in sections:
                with self.subTest(page=name, section=section.title):
                    self.check_section(name, section)


class Agreement(unittest.TestCase):
    def test_lines(self) -> None:
        rows: list[tuple[list[str], list[str], bool]] = [
            (["a"], ["a"], True),
            (["a"], ["a", "b"], False),
            (["a", "..."], ["a", "b", "c"], True),
            (["...", "c"], ["a", "b", "c"], True),
            (["...", "b"], ["a", "b", "c"], False),
            (["a.c"], ["abc"], False),
            (["a..."], ["abc"], True),
            (["a..."], ["abc", "d"], False),
            ([], [], True),
            ([], [""], False),
        ]
        for expected, printed, same in rows:
            with self.subTest(expected=expected, printed=printed):
                self.assertEqual(agree(expected, printed), same)

    def test_blocks(self) -> None:
        page = "## One\n\n```console\n$ a \\\n> b\nx\n$ c\n```\n\n```sh\n$ no\n```\n\n```make\nall:\n```\n## Two\n"
        [section] = sections_of(page)
        self.assertEqual((section.title, section.makefile), ("One", "all:\n"))
        self.assertEqual(
            [(command.line, command.text, command.printed) for command in section.commands], [(4, "a \\\nb", ["x"]), (7, "c", [])]
        )


if __name__ == "__main__":
    unittest.main()
