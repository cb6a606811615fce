"""What became of one file: accepted, its faults with their places, or why it was not judged; and what is suspect in it."""

from __future__ import annotations

from typing import TYPE_CHECKING

from ..asking.program import ACCEPTED, Reply

if TYPE_CHECKING:
    from .placed import PlacedFault, PlacedWarning


class Judgement:
    """What became of one file: no faults and no problem is accepted."""

    def __init__(
        self, path: str, faults: list[PlacedFault] | None = None, problem: str | None = None, warnings: list[PlacedWarning] | None = None
    ) -> None:
        self.path, self.faults, self.problem, self.warnings = path, faults or [], problem, warnings or []

    def accepted(self) -> bool:
        """Whether `tml` accepted the document."""
        return self.problem is None and not self.faults

    def is_plain(self) -> bool:
        """Whether it was accepted and there is nothing to say of it."""
        return self.problem is None and not self.faults and not self.warnings


def problem_of(reply: Reply) -> str | None:
    """Why an answer is not a judgement, or None where the document is accepted."""
    return None if reply.status == ACCEPTED else reply.problem()
