"""Runs of a program over the files of a case: what they answer, and what they take."""

from __future__ import annotations

import math
import os
import re
import subprocess
import tempfile
from collections import Counter
from collections.abc import Sequence
from dataclasses import dataclass
from pathlib import Path

from hard_shapes import Case

NULL = subprocess.DEVNULL
CLASH, NOT_DONE, FAULT = 2, 100, 1
BY_HAND = ("check", "spans", "canon", "solve", "relations", "matrix", "possible", "reduce", "score", "seconds")
"""The commands of bench/plain."""
OF_NETS = ("solve", "ask", "relations", "matrix", "possible", "reduce", "score", "seconds", "verify", "confirm")
OF_TWO_FILES = {"score": "key", "verify": "evidence", "confirm": "seconds"}
PRINTED_BY = {"verify": "solve", "confirm": "seconds"}
"""The command that prints the other file where a case has none."""
ORDERS = {"BEFORE": 1, "AFTER": 1, "SIMULTANEOUS": 4, "IDENTITY": 4, "INCLUDES": 2, "IS_INCLUDED": 2, "DURING": 2, "DURING_INV": 2}
ORDERS |= {"IBEFORE": 2, "IAFTER": 2}
MOST_ORDERS = 3
"""The orders of each other relation."""


@dataclass(frozen=True)
class Run:
    """The end of a run: its status, what it printed, and the seconds of processor time that it took."""

    status: int
    text: bytes
    seconds: float


def limited(words: list[str], limit: float) -> list[str]:
    """A command that ends by a signal after this many seconds of processor time."""
    return ["prlimit", f"--cpu={math.ceil(limit)}", *words]


def run(words: list[str], limit: float) -> Run | None:
    """A run, or None if it took longer than this many seconds."""
    with tempfile.TemporaryFile() as told:
        child = subprocess.Popen(limited(words, limit), stdin=NULL, stdout=told, stderr=NULL)
        _, status, usage = os.wait4(child.pid, 0)
        child.returncode = os.waitstatus_to_exitcode(status)
        if child.returncode < 0:
            return None
        told.seek(0)
        return Run(child.returncode, told.read(), usage.ru_utime + usage.ru_stime)


def instructions(words: list[str], limit: float) -> float | None:
    """The millions of instructions of a run by callgrind, or None if it took longer than this many seconds."""
    callgrind = limited(["valgrind", "--tool=callgrind", "--callgrind-out-file=/dev/null", *words], limit)
    child = subprocess.run(callgrind, stdin=NULL, stdout=NULL, stderr=subprocess.PIPE, text=True, check=False)
    collected = re.search(r"Collected : (\d+)", child.stderr)
    if child.returncode < 0 or collected is None:
        return None
    return int(collected[1]) / 1e6


class Files:
    """The files of a case, in a folder of their own."""

    def __init__(self, folder: Path, case: Case) -> None:
        self.folder, self.case = folder, case
        (folder / "document").write_bytes(case.document)
        (folder / "half").write_bytes(case.second)
        if case.other is not None:
            (folder / "other").write_bytes(case.other)

    def words(self, programs: Sequence[str], command: str, size: int, limit: float) -> list[str]:
        """The command and its arguments. What another command has to print is printed by the first of these programs that does it."""
        document, other, half = (str(self.folder / name) for name in ("document", "other", "half"))
        first, relation, last = self.case.asked
        if command == "drill":
            return [command, str(size)]
        if command in ("ask", "possible"):
            return [command, document, first, relation, last] if command == "ask" else [command, document, first, last]
        if command == "renew":
            return [command, other]
        if command == "join":
            return [command, half, half]
        if command not in OF_TWO_FILES:
            return [command, document]
        if self.case.other is None and command == "score":
            return [command, document, document]
        if self.case.other is None:
            made = (run([program, PRINTED_BY[command], document], limit) for program in programs)
            Path(other).write_bytes(next((done.text for done in made if done and done.status != NOT_DONE), b""))
        return [command, document, other]


@dataclass(frozen=True)
class Terms:
    """What a run may take time for: each number may be multiplied by a logarithm."""

    read: int
    """How many bytes the files have."""
    answer: int
    """How many bytes are printed."""
    cited: int
    """How many links are cited: a run may look at all points and orders once for each."""
    pairs: int
    """How many points there are: a run may look at all orders once for each, 64 at a time."""

    def units(self) -> float:
        """Their sum, times a logarithm."""
        return (self.read + self.answer + self.cited + self.pairs) * math.log2(self.read + self.answer)

    def growth(self, before: Terms, factor: float) -> float:
        """The greatest exponent of any of the numbers, where a size has become this many times as great."""
        pairs = [(self.read, before.read), (self.answer, before.answer), (self.cited, before.cited), (self.pairs, before.pairs)]
        logs = math.log(math.log(self.read + self.answer) / math.log(before.read + before.answer))
        return max(math.log(now / then) + logs for now, then in pairs if now and then) / math.log(factor)


def terms(plain: str, words: list[str], run_of: Run) -> Terms:
    """The terms of a run with these words."""
    paths = [word for word in words[1:] if word.startswith("/")]
    read = sum(os.path.getsize(path) for path in paths)
    if words[0] not in OF_NETS:
        return Terms(read, len(run_of.text), 0, 0)
    sizes = [net_size(plain, path) for path in (paths if words[0] == "score" else paths[:1])]
    points, orders = (sum(numbers) for numbers in zip(*sizes))
    clash = re.search(rb"^clash (\d+)$", run_of.text[:1000], re.MULTILINE)
    cited = int(clash[1]) if clash else 0
    return Terms(read, len(run_of.text), cited * (points + orders), points * orders // 64)


def net_size(plain: str, path: str) -> tuple[int, int]:
    """How many points a net has, and how many orders by spans, links and dates."""
    checked = run([plain, "check", path], 60)
    if checked is None or checked.status != 0:
        return 0, 0
    counts = Counter(line.split()[0] for line in checked.text.splitlines())
    relations = Counter(line.split()[3].decode() for line in checked.text.splitlines() if line.startswith(b"tlink "))
    dated = re.search(rb"^timex (\d+)$", checked.text, re.MULTILINE)
    of_links = sum(count * ORDERS.get(name, MOST_ORDERS) for name, count in relations.items())
    intervals = counts[b"interval"]
    return 2 * intervals, intervals + of_links + 2 * (int(dated[1]) if dated else 0)


def says_the_same(tml: str, words: list[str], ours: Run, by_hand: Run, folder: Path) -> bool:
    """Whether two programs print the same, or each one of the answers that are free."""
    if ours.status != by_hand.status:
        return False
    if ours.text == by_hand.text:
        return True
    if words[0] != "seconds" and ours.status != CLASH:
        return False
    (folder / "printed").write_bytes(by_hand.text)
    judge = "confirm" if words[0] == "seconds" else "verify"
    judged = run([tml, judge, words[1], str(folder / "printed")], 60)
    return judged is not None and judged.status == 0
