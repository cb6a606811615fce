"""Runs all tests of the Python code, in the environment that environment.py makes: `tools/tests` starts it.

Each file of tests is run in a process of its own, one more at once than there are processors, since many of them wait for something; those
that take longest begin first. These processes are forked from this one, which has imported what the files share: to do that in each of them
took a tenth of the time of all tests.
"""

import argparse
import os
import subprocess
import sys
from collections.abc import Iterator, Sequence
from multiprocessing import get_context
from multiprocessing.connection import Connection, wait
from multiprocessing.process import BaseProcess
from pathlib import Path

TESTS = Path(__file__).resolve().parent
sys.path[:0] = [os.environ.get("TML_INSTALLED") or str(TESTS.parent / "src"), str(TESTS.parent / "dev"), str(TESTS)]

from bytecode import compiled_once
from installing import installed
from one_file import Ran, Skipped, run

LONGEST = (
    "test_corpus_library", "test_cluster", "test_attacks_documents", "test_web", "test_library_rows", "test_differential", "test_library",
    "test_recipes", "test_small_nets", "test_refused_memory", "test_pool", "test_reference", "test_serve", "test_attacks_output",
    "test_attacks_room", "test_timeline", "test_report", "test_python", "test_matrix", "test_release", "test_misuse", "test_placed",
    "test_explain", "test_web_page", "test_installed", "test_serve_protocol", "test_inquiry", "test_attacks_programs", "test_check",
    "test_cures",
)  # fmt: skip
"""The files of tests that take longest, or wait longest."""


OF_THE_MACHINE = ("not run as root", "no TeX", "no access lists", "no /proc", "of the clone alone")
"""How the reasons begin for which a test may be skipped with `--whole`: what a machine may lack, or what is not in an installed package."""

SLOWEST = 10
"""How many files of tests are named as the slowest."""


def parsed(arguments: Sequence[str]) -> argparse.Namespace:
    """The options and names of the command line."""
    parser = argparse.ArgumentParser(
        prog="tests",
        description="Runs the tests of the Python code. The last line is 'N passed, M failed', and the status is 0 if none failed.",
    )
    parser.add_argument("--whole", action="store_true", help="a skipped test has failed, unless the machine cannot run it")
    parser.add_argument("--installed", action="store_true", help="test what pip installs into a new folder, and not the clone")
    parser.add_argument("names", nargs="*", metavar="FILE", help="the files of tests, as test_check (default: all)")
    return parser.parse_args(arguments)


def chosen(words: Sequence[str]) -> list[str]:
    """The files of tests that words name, or all of them; those that take longest come first."""
    present = {path.stem for path in TESTS.glob("test_*.py")}
    names = {Path(word).stem for word in words} or present
    if names - present:
        sys.exit(f"tests: no file of tests {', '.join(sorted(names - present))}")
    return sorted(names, key=lambda name: (LONGEST.index(name) if name in LONGEST else len(LONGEST), name))


def main(arguments: Sequence[str]) -> int:
    """Runs the tests and answers the status."""
    given = parsed(arguments)
    if not given.installed or "TML_INSTALLED" in os.environ:
        return run_all(chosen(given.names), given.whole)
    # Another process imports what is installed.
    with installed():
        return subprocess.run([sys.executable, __file__, *arguments], check=False).returncode


def run_all(names: Sequence[str], whole: bool) -> int:
    """Runs these files of tests and answers the status. With `whole`, a skipped test has failed, unless the machine is the reason."""
    passed = 0
    failed: set[str] = set()
    skipped: list[Skipped] = []
    seconds: dict[str, float] = {}
    with compiled_once():
        for name, ran in in_processes(names):
            print(f"{name}: {ran.printed.strip()}", flush=True)
            passed, failed = passed + ran.passed, failed | ran.failed
            skipped += ran.skipped
            seconds[name] = ran.seconds
    for one in skipped:
        print(f"skipped: {one.test}: {one.reason}")
        if whole and not one.reason.startswith(OF_THE_MACHINE):
            failed.add(one.test)
    print_slowest(seconds)
    for test in sorted(failed):
        print(f"failed: {test}")
    print(f"{passed} passed, {len(failed)} failed")
    return 1 if failed else 0


def print_slowest(seconds: dict[str, float]) -> None:
    """Prints the files of tests that took the most processor time."""
    print("slowest files of tests, in seconds of processor time:")
    slowest = sorted(seconds.items(), key=lambda pair: pair[1], reverse=True)
    for name, taken in [*slowest[:SLOWEST], ("all files", sum(seconds.values()))]:
        print(f"{taken:8.1f}  {name}")


def in_processes(names: Sequence[str]) -> Iterator[tuple[str, Ran]]:
    """Runs each of these files in a forked process, one more at once than there are processors, and gives what came of it as it ends."""
    fork, waiting, at_once = get_context("fork"), list(reversed(names)), len(os.sched_getaffinity(0)) + 1
    running: dict[Connection, tuple[str, BaseProcess]] = {}
    while waiting or running:
        while waiting and len(running) < at_once:
            name = waiting.pop()
            ours, theirs = fork.Pipe(duplex=False)
            child = fork.Process(target=send, args=(name, theirs))
            child.start()
            theirs.close()
            running[ours] = name, child
        for one in wait(list(running)):
            assert isinstance(one, Connection)
            name, ending = running.pop(one)
            try:
                ran = one.recv()
            except EOFError:
                ran = Ran("the process has ended", 0, frozenset({name}), ())
            ending.join()
            yield name, ran


def send(name: str, connection: Connection) -> None:
    """Runs a file of tests, and sends what came of it."""
    connection.send(run(name))


if __name__ == "__main__":
    sys.exit(main(sys.argv[1:]))
