"""What a form of a report is. This module is loaded by no run: it has types alone."""

from __future__ import annotations

from typing import Protocol, TypeVar

Reported = TypeVar("Reported", contravariant=True)
Counted = TypeVar("Counted", contravariant=True)


class Form(Protocol[Reported, Counted]):
    """A form of a report: what is printed of each file, and what comes after all of them."""

    summary_apart: bool
    """Whether the output is for programs, so that a summary goes to standard error."""

    def file(self, report: Reported, /) -> str:
        """What is printed of one file."""

    def plain(self, path: str) -> str:
        """What is printed of a file that is accepted, and of which there is nothing to say."""

    def end(self, summary: Counted) -> str:
        """What comes after all files."""
