"""Runs one file of tests."""

import io
import resource
import unittest
from dataclasses import dataclass
from pathlib import Path

import tml
import tml_corpus
from corpus import SOURCES


@dataclass(frozen=True)
class Skipped:
    """A test, or a class of tests, that was skipped, and the reason."""

    test: str
    reason: str


@dataclass(frozen=True)
class Ran:
    """What came of a file of tests: what it printed, how many tests passed, which failed, which were skipped, and its processor time."""

    printed: str
    passed: int
    failed: frozenset[str]
    skipped: tuple[Skipped, ...]
    seconds: float = 0.0


class Counted(unittest.TextTestResult):
    """A result that also counts the tests that passed."""

    passed = 0

    def addSuccess(self, test: unittest.TestCase) -> None:
        super().addSuccess(test)
        self.passed += 1


def run(name: str) -> Ran:
    """Runs the file of tests with this name, over the packages that are to be tested, in a process that runs nothing else."""
    for package in (tml, tml_corpus):
        if not Path(str(package.__file__)).is_relative_to(SOURCES):
            raise ImportError(f"{package.__file__} is imported, and the packages to be tested lie in {SOURCES}")
    printed = io.StringIO()
    result = unittest.TextTestRunner(stream=printed, resultclass=Counted).run(unittest.defaultTestLoader.loadTestsFromName(name))
    assert isinstance(result, Counted)
    # A subtest that failed counts as its test.
    failed = {getattr(test, "test_case", test).id() for test, _ in result.failures + result.errors}
    failed |= {test.id() for test in result.unexpectedSuccesses}
    skipped = tuple(Skipped(str(test), reason) for test, reason in result.skipped)
    return Ran(printed.getvalue(), result.passed, frozenset(failed), skipped, processor_time())


def processor_time() -> float:
    """How many seconds of processor time this process took, with all children that have ended."""
    used = [resource.getrusage(who) for who in (resource.RUSAGE_SELF, resource.RUSAGE_CHILDREN)]
    return sum(one.ru_utime + one.ru_stime for one in used)
