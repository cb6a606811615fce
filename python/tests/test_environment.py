"""The environment of the tests, and what `tools/tests` makes of skipped tests."""

import contextlib
import io
import os
import signal
import subprocess
import sys
import tempfile
import unittest
from pathlib import Path
from unittest import mock

import all_tests
import environment
from one_file import Ran, Skipped
from processes import PATIENCE

SAYS = """import os, resource, signal
print(signal.getsignal(signal.SIGTERM) == signal.SIG_DFL, signal.pthread_sigmask(signal.SIG_BLOCK, ()))
print(resource.getrlimit(resource.RLIMIT_NOFILE)[0], resource.getrlimit(resource.RLIMIT_CORE)[0], os.getsid(0) == os.getpid())
"""
"""A program that says which signals it takes, how many files it may open, how much of a core it may leave, and whether it has a session."""


class Environment(unittest.TestCase):
    def setUp(self) -> None:
        held = tempfile.TemporaryDirectory()
        self.addCleanup(held.cleanup)
        self.folder = Path(held.name)

    def test_variables_of_the_caller_are_not_kept(self) -> None:
        given = {"TML": "here/tml", "TML_LIBRARY": "", "TML_OTHER": "x", "COLUMNS": "20", "PYTHONPATH": "/x", "HOME": "/x", "PATH": "/x"}
        with mock.patch.dict(os.environ, given, clear=True):
            made = environment.prepared(self.folder, sys.executable)
        own = {"HOME", "LC_ALL", "PATH", "PYTHONDONTWRITEBYTECODE", "PYTHONHASHSEED", "TMPDIR", "TZ"}
        self.assertEqual(set(made), {"TML", "TML_LIBRARY"} | own)
        self.assertEqual((made["TML"], made["TML_LIBRARY"]), (os.path.abspath("here/tml"), ""))
        self.assertTrue(all(made[name].startswith(f"{self.folder}") for name in ("HOME", "PATH", "TMPDIR")))

    def test_python_is_the_one_that_runs_the_tests(self) -> None:
        made = environment.prepared(self.folder, sys.executable)
        words = ["env", "python3", "-c", "import sys; print(sys.executable)"]
        done = subprocess.run(words, env=made, capture_output=True, text=True, check=True, timeout=PATIENCE)
        self.assertEqual(done.stdout, f"{sys.executable}\n")

    def test_signals_and_limits_are_the_usual_ones(self) -> None:
        def as_odd() -> None:
            signal.signal(signal.SIGTERM, signal.SIG_IGN)
            signal.pthread_sigmask(signal.SIG_BLOCK, {signal.SIGINT})

        script = f"import environment, os, sys; sys.exit(environment.status_of([sys.executable, '-c', {SAYS!r}], dict(os.environ)))"
        variables = {**os.environ, "PYTHONPATH": str(environment.TESTS)}
        words = [sys.executable, "-c", script]
        done = subprocess.run(words, env=variables, preexec_fn=as_odd, capture_output=True, text=True, check=True, timeout=PATIENCE)
        self.assertEqual(done.stdout, "True set()\n1024 0 True\n")


class Whole(unittest.TestCase):
    def ran(self, whole: bool, *skipped: Skipped) -> tuple[int, list[str]]:
        """The status, the failures and the last line that are printed, of a file in which one test passed and some were skipped."""
        out, one = io.StringIO(), Ran("", 1, frozenset(), skipped, 2.0)
        with mock.patch.object(all_tests, "in_processes", return_value=[("test_a", one)]), contextlib.redirect_stdout(out):
            with mock.patch.object(all_tests, "compiled_once", contextlib.nullcontext):
                status = all_tests.run_all(["test_a"], whole)
        lines = out.getvalue().splitlines()
        return status, [line for line in lines if line.startswith("failed: ")] + lines[-1:]

    def test_a_skipped_test_fails_where_all_have_to_run(self) -> None:
        machine, other = Skipped("one", "no TeX here"), Skipped("other", "no program node")
        self.assertEqual(self.ran(False, machine, other), (0, ["1 passed, 0 failed"]))
        self.assertEqual(self.ran(True, machine), (0, ["1 passed, 0 failed"]))
        self.assertEqual(self.ran(True, machine, other), (1, ["failed: other", "1 passed, 1 failed"]))


if __name__ == "__main__":
    unittest.main()
