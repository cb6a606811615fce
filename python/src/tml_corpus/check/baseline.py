"""Warnings that were there before, in a file: they are not reported again.

The file has a first line that says what it is, and then a line for each file, kind of warning and tag: an array of JSON with
the path (from the folder of the baseline on), the name of the warning, the tag as it is written, and how often it is there.
"""

from __future__ import annotations

import json
import os
from collections import Counter

from ..asking.program import CannotRun
from ..files.finding import LONGEST_LINE, CannotRead, counted, lines_of, shown
from ..files.replacing import replace_file
from .judgement import Judgement
from .placed import PlacedWarning

FIRST = b'["tml-corpus baseline", 1]\n'
Key = tuple[str, str, str]


class Baseline:
    """How often each warning was there."""

    def __init__(self, path: str, counts: Counter[Key] | None = None) -> None:
        self.path, self.folder = path, os.path.dirname(os.path.abspath(path))
        self.counts, self.hidden = counts or Counter[Key](), 0

    def name_of(self, path: str) -> str:
        """The path of a file from the folder of the baseline on."""
        return os.path.relpath(os.path.abspath(path), self.folder)

    def key(self, path: str, warning: PlacedWarning) -> Key:
        """What a warning is known by; not by its line, which changes where something before it is changed."""
        return self.name_of(path), warning.name, warning.tag

    def apply(self, judgement: Judgement) -> None:
        """Takes the warnings that were there before out of a judgement."""
        new = []
        for warning in judgement.warnings:
            key = self.key(judgement.path, warning)
            if self.counts[key] > 0:
                self.counts[key] -= 1
                self.hidden += 1
            else:
                new.append(warning)
        judgement.warnings = new

    def finish(self, is_interrupted: bool) -> str:
        """What there is to say of it in the end."""
        del is_interrupted
        return f"{counted(self.hidden, 'warning')} of the baseline not shown\n" if self.hidden else ""


class NewBaseline(Baseline):
    """A baseline that is to be written. Of files that were not accepted, and so have no warnings now, it keeps those of the old one."""

    def __init__(self, path: str) -> None:
        super().__init__(path)
        self.old: dict[str, Counter[Key]] = {}
        if is_not_empty(path):
            for key, count in read_baseline(path).counts.items():
                self.old.setdefault(key[0], Counter())[key] = count

    def apply(self, judgement: Judgement) -> None:
        """Notes the warnings of a file, in the place of reporting them."""
        if judgement.accepted():
            self.counts.update(self.key(judgement.path, warning) for warning in judgement.warnings)
        else:
            self.counts.update(self.old.pop(self.name_of(judgement.path), {}))
        judgement.warnings = []

    def finish(self, is_interrupted: bool) -> str:
        """Writes it, where all files were looked at, and answers what there is to say of that."""
        if is_interrupted:
            return ""
        lines = (json.dumps([*key, count]) + "\n" for key, count in sorted(self.counts.items()))
        replace_file(self.path, FIRST + "".join(lines).encode())
        return f"{counted(self.counts.total(), 'warning')} written to {shown(self.path)}\n"


def is_not_empty(path: str) -> bool:
    """Whether there is a file with something in it."""
    try:
        return os.stat(path).st_size > 0
    except (OSError, ValueError):
        return False


def read_baseline(path: str) -> Baseline:
    """The baseline of a file, however long that is."""
    counts: Counter[Key] = Counter()
    try:
        lines = lines_of(path)
        if next(lines, b"").rstrip() != FIRST.rstrip():
            raise CannotRun(f"{path}:1:1: this is not a baseline; --write-baseline creates one, or overwrites another")
        for number, line in enumerate(lines, 2):
            counts.update(read_line(path, number, line))
    except CannotRead as problem:
        raise CannotRun(f"the baseline {path} cannot be read: {problem}") from None
    return Baseline(path, counts)


def read_line(path: str, number: int, line: bytes) -> dict[Key, int]:
    """One line of a baseline."""
    column = 1
    try:
        entry = json.loads(line.decode("utf-8")) if len(line) <= LONGEST_LINE else None
        if isinstance(entry, list) and len(entry) == 4:
            name, kind, tag, count = entry
            if all(isinstance(text, str) for text in (name, kind, tag)) and type(count) is int and count > 0:
                return {(name, kind, tag): count}
    except RecursionError:
        pass
    except ValueError as error:
        column = getattr(error, "colno", 1)
    raise CannotRun(f"{path}:{number}:{column}: this is not a line of a baseline: an array of a path, a name, a tag and a number")
