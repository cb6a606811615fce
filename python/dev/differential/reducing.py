"""Makes a case that differs smaller: parts of its files are dropped while the difference stays."""

from __future__ import annotations

import re
import time
from collections.abc import Callable
from dataclasses import replace

from differential.cases import STANDARD_INPUT, Case

Differs = Callable[[Case], bool]
PARTS = (re.compile(rb"[^\n]*\n|[^\n]+"), re.compile(rb"<[^<]*|[^<]+"), re.compile(rb"\s+[^\s>]*|[^\s]+"), re.compile(rb"[\s\S]"))
"""What the parts of a file are: lines, tags with the text after them, words, and bytes."""
LARGEST = 8
"""Into so many parts a file is cut at first, of which each is tried to be dropped."""


class Reducing:
    """A case that differs, as small as it could be made, and when to stop."""

    def __init__(self, case: Case, differs: Differs, seconds: float) -> None:
        self.case = case
        self.differs = differs
        self.late = time.monotonic() + seconds

    def take(self, case: Case) -> bool:
        """Takes another case in the place of the case, where it differs and the time is not over."""
        if time.monotonic() > self.late or not self.differs(case):
            return False
        self.case = case
        return True

    def drop_files(self) -> None:
        """Drops files that no word names."""
        for name in list(self.case.files):
            if name not in self.case.words and (name != STANDARD_INPUT or self.case.words):
                self.take(replace(self.case, files={key: content for key, content in self.case.files.items() if key != name}))

    def drop_parts(self, name: bytes, shape: re.Pattern[bytes]) -> None:
        """Drops parts of a file: many at once, then fewer, then each alone."""
        parts = shape.findall(self.case.files[name])
        size = max(len(parts) // LARGEST, 1)
        while True:
            at = 0
            while at < len(parts) and time.monotonic() <= self.late:
                rest = parts[:at] + parts[at + size :]
                if self.take(replace(self.case, files={**self.case.files, name: b"".join(rest)})):
                    parts = rest
                else:
                    at += size
            if size == 1:
                return
            size = max(size // 3, 1)


def reduced(case: Case, differs: Differs, seconds: float) -> Case:
    """The case after all parts were dropped that can be, or after so many seconds."""
    reducing = Reducing(case, differs, seconds)
    reducing.drop_files()
    for shape in PARTS:
        for name in case.files:
            if name in reducing.case.files:
                reducing.drop_parts(name, shape)
    return reducing.case
