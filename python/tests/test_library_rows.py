"""The library over the table of `command_rows`: it answers each row as the table wants it, and as the program does over real files."""

from __future__ import annotations

import os
import re
import unittest
from collections import Counter
from collections.abc import Callable, Iterator
from dataclasses import dataclass, field, replace
from pathlib import Path

from corpus import TML, TOP
from differential.cases import STANDARD_INPUT, Case, Memory
from differential.libraries import Libraries, library_path, obstacle
from differential.programs import Programs
from differential.tables import Row, Table
from reference import Outcome
from tml.finding import BUILT_LIBRARY
from tml.statuses import TmlStatus

ROWS = Path(TOP, "crates", "command_rows")
SECTION = re.compile(r"^(.*): (\d+) right(?:, (\d+) WRONG)?$", re.MULTILINE)
ON_PURPOSE = "rows that are wrong on purpose: how a difference is shown"
LEFT_OUT = ("a read that failed", "a write that failed")
LINES_LEFT_OUT, NAMED_TWICE = 50, 10
"""How many lines of commands are left out at most, and how many rows name standard input twice."""
ANOTHER_NAME = b"input"


def wanted_counts() -> dict[str, tuple[int, int]]:
    """How many rows of each section are right and wrong, by what the gate wants `command_rows` to print."""
    printed = (ROWS / "stdout").read_text(encoding="utf-8")
    return {name: (int(right), int(wrong or 0)) for name, right, wrong in SECTION.findall(printed)}


def failed(row: Row) -> str | None:
    """Which device of a row has failed, by what is wanted: only an answer that is done has another status where its text is cut off."""
    memory, wanted = row.case.memory or Memory(), row.wanted
    if wanted.status == TmlStatus.WRITE_FAULT or (wanted.status != TmlStatus.DONE and len(wanted.text) >= memory.written_at_most()):
        return "a write that failed"
    return "a read that failed" if memory.failing_reads and wanted.status == TmlStatus.READ_FAULT else None


def on_a_machine(case: Case) -> Case:
    """The case without devices in memory. There standard input can be read twice, as a file can on a machine."""
    if case.readings() != [STANDARD_INPUT, STANDARD_INPUT]:
        return replace(case, memory=None)
    words = (case.words[0], ANOTHER_NAME, ANOTHER_NAME)
    return replace(case, words=words, files={ANOTHER_NAME: case.files[STANDARD_INPUT]}, memory=None)


@dataclass
class Tried:
    """How many rows of each section were answered, and how many were left out, why, and of which lines."""

    answered: Counter[str] = field(default_factory=Counter)
    left_out: Counter[str] = field(default_factory=Counter)
    reasons: Counter[str] = field(default_factory=Counter)
    lines_left_out: set[int] = field(default_factory=set)
    named_twice: int = 0

    def rows(self, answer: Callable[[Case], Outcome]) -> Iterator[tuple[Row, Case, Outcome]]:
        """The rows that are answered, each as a case on a machine."""
        table = Table((ROWS / "stdin").read_bytes())
        for row in table.rows():
            case = on_a_machine(row.case)
            reason = failed(row) or obstacle(case)
            if reason is not None:
                self.left_out[row.section] += 1
                self.reasons[reason] += 1
                self.lines_left_out.add(row.line)
                assert row.kept_as is None, f"line {row.line}: what is read below was not answered"
                continue
            outcome = answer(case)
            if row.kept_as is not None:
                table.keep(row.kept_as, outcome.text)
            self.answered[row.section] += 1
            self.named_twice += case.words != row.case.words
            yield row, case, outcome


HAS_LIBRARY = unittest.skipUnless(
    library_path(), f"no library {BUILT_LIBRARY}: docs/LIBRARY.md says how it is made, or name one by TML_LIBRARY="
)


class TableRows(unittest.TestCase):
    """All rows, gone through once: by the library, and of each row by the program too, as far as these are there."""

    tried: Tried
    right: Counter[str]
    wrong: list[str]
    other: list[str]
    """What the library answers otherwise than the table wants, and than the program."""

    @classmethod
    def setUpClass(cls) -> None:
        cls.tried, cls.right, cls.wrong, cls.other = Tried(), Counter[str](), [], []
        path = library_path()
        if path is None:
            for _ in cls.tried.rows(lambda _: Outcome(0, b"")):
                pass
            return
        with Libraries(path) as libraries, Programs(Path(TML).absolute()) as programs:
            for row, case, outcome in cls.tried.rows(libraries.outcome):
                cls.compare(row, case, outcome)
                if os.access(TML, os.X_OK) and (answered := programs.outcome(case)) != outcome:
                    cls.other.append(f"line {row.line}, {case.words}: {outcome.status}, and the program {answered.status}, or another text")

    @classmethod
    def compare(cls, row: Row, case: Case, outcome: Outcome) -> None:
        """Compares what the library answers with what the table wants."""
        if row.is_right(outcome):
            cls.right[row.section] += 1
        elif row.section != ON_PURPOSE:
            cls.wrong.append(f"line {row.line}, {case.words}: {outcome.status}, and not {row.wanted.status}, or another text")

    def test_the_table_is_read_as_command_rows_reads_it(self) -> None:
        """No row is missing but those whose devices fail, which are few lines of the table."""
        wanted = {section: sum(counts) for section, counts in wanted_counts().items()}
        self.assertEqual({section: self.tried.answered[section] + self.tried.left_out[section] for section in wanted}, wanted)
        self.assertEqual((self.tried.answered + self.tried.left_out).total(), sum(wanted.values()))
        self.assertLessEqual(set(self.tried.reasons), set(LEFT_OUT), self.tried.reasons)
        self.assertLessEqual(len(self.tried.lines_left_out), LINES_LEFT_OUT)
        self.assertLessEqual(self.tried.named_twice, NAMED_TWICE)
        self.assertGreater(self.tried.answered.total(), 3000)

    @HAS_LIBRARY
    def test_the_library_answers_as_the_table_wants(self) -> None:
        self.assertEqual(self.wrong, [])
        counts = {section: count for section, (count, _) in wanted_counts().items()}
        self.assertEqual({section: self.right[section] + self.tried.left_out[section] for section in counts}, counts)

    @HAS_LIBRARY
    @unittest.skipUnless(os.access(TML, os.X_OK), f"no program {TML}")
    def test_the_library_answers_as_the_program(self) -> None:
        self.assertEqual(self.other, [])


if __name__ == "__main__":
    unittest.main()
