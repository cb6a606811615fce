"""A second opinion on what `tml` answers: docs/DEFINITIONS.md in plain Python, section by section. See README.md beside this file."""

from .answers import Free, Outcome
from .judge import expected, judge, judge_failing

__all__ = ["Free", "Outcome", "expected", "judge", "judge_failing"]
