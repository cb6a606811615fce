"""Faults of the code, on purpose: in the work on the file N the N-th function that is called raises something."""

import builtins
import errno
import inspect
import os
import re
import subprocess
import sys
from collections.abc import Callable, Iterator
from contextlib import ExitStack, contextmanager
from importlib import import_module
from pathlib import Path
from types import FrameType
from typing import Any
from unittest import mock

from corpus import COMPANION, EVENT, SOURCES, TML, CorpusTest, document, match_in
from forked import run_forked
from processes import with_own_bytecode
from tml import attempts
from tml.attempts import NO_MEMORY
from tml.running import CannotRun

PLACE = r"\((?:tml|tml_corpus|src|[a-z_]+)/[a-z0-9_]+\.py:\d+\)"
"""How a message names a place in the code."""

SPANS = "the answer of tml to `spans` cannot be read"
"""What is said where numbers of this answer are none, which is seen by what reading them raises."""

BUGS: tuple[tuple[Callable[[], Exception], str], ...] = (
    (lambda: KeyError("bug"), f"KeyError: 'bug' {PLACE}|{SPANS}"),
    (
        lambda: UnicodeDecodeError("euc_kr", b"\xb0", 0, 1, "cut"),
        f"(?:UnicodeDecodeError: )?'euc_kr' codec can't decode .*: cut(?: {PLACE})?|{SPANS}",
    ),
    (lambda: RecursionError("too deep"), f"RecursionError: too deep {PLACE}"),
    (lambda: AssertionError(), f"AssertionError:  {PLACE}"),
    (MemoryError, "no memory to take the document apart|tml ran out of memory"),
    (lambda: CannotRun("as expected"), "as expected"),
)
"""What may be raised besides errors of the system, each with what is said of it."""

ERRORS = sorted(errno.errorcode)
MODULES = ("agree", "check", "clashes", "fix", "matrix", "open", "report", "seconds", "tags", "timeline")


def fault(number: int) -> tuple[Exception, str]:
    """What is raised in the work on a file of this number, and what is said of it."""
    if number % 2:
        code = ERRORS[number // 2 % len(ERRORS)]
        return OSError(code, os.strerror(code)), re.escape(os.strerror(code).lower())
    make, said = BUGS[number // 2 % len(BUGS)]
    return make(), said


def number_of(given: Any) -> int | None:
    """The number of a file, by its path or its name."""
    path = given[0] if isinstance(given, tuple) else given
    found = re.fullmatch(r"(?:.*/)?[a-z]*(\d+)(?:\.xml)?", path) if isinstance(path, str) else None
    return int(found[1]) if found else None


class Raising:
    """Raises a fault in the N-th function of the packages that is called."""

    def __init__(self, number: int) -> None:
        self.number, self.left = number, number

    def __call__(self, frame: FrameType, event: str, _: Any) -> None:
        """Is called with each function."""
        # What a generator raises when it is let go of is lost, whoever calls it.
        path, is_generator = frame.f_code.co_filename, frame.f_code.co_flags & inspect.CO_GENERATOR
        if event == "call" and path.startswith(SOURCES) and path != attempts.__file__ and not is_generator:
            self.left -= 1
            if not self.left:
                raise fault(self.number)[0]


def attacked(work: Callable[[Any], Any], given: Any, failed: Callable[[Any, str], Any]) -> Any:
    """The work on a file with a fault in it."""
    number, before = number_of(given), sys.getprofile()
    if number is None:
        return attempts.attempted(work, given, failed)
    sys.setprofile(Raising(number))
    try:
        return attempts.attempted(work, given, failed)
    finally:
        sys.setprofile(before)


@contextmanager
def faults() -> Iterator[None]:
    """Has all work on files be faulty, in this process and in those that it forks."""
    for path in Path(SOURCES).rglob("*.py"):
        if "attempted" in path.read_text(encoding="utf-8") and path.stem not in ("cluster", "folders", "workers", "attempts"):
            import_module(".".join(path.relative_to(SOURCES).with_suffix("").parts))
    with ExitStack() as stack:
        for module in list(sys.modules.values()):
            if module is not attempts and vars(module).get("attempted") is attempts.attempted:
                stack.enter_context(mock.patch.object(module, "attempted", attacked))
        yield


def broken() -> Callable[..., int]:
    """Opens files, but raises for one of the folder `d` what it is called."""
    real = os.open

    def opened(path: str, *rest: Any, **more: Any) -> int:
        folder, name = os.path.split(path.removesuffix(".xml"))
        if os.path.basename(folder) == "d" and name != "none":
            raise OSError(int(name), os.strerror(int(name))) if name.isdigit() else getattr(builtins, name)("bug")
        return real(path, *rest, **more)

    return opened


def same_on_workers(test: CorpusTest, address: str) -> None:
    """Raises each error and some bugs on the workers of a cluster, which has to be said as on one machine. Then they are whole again."""
    from distributed import Client

    bugs = ("KeyError", "RecursionError", "MemoryError", "AssertionError")
    names = (*map(str, ERRORS), *bugs, "none")
    for name in names:
        test.write(f"d/{name}.xml", document(EVENT))

    def change(breaks: bool) -> None:
        if breaks:
            os.whole = os.open  # type: ignore[attr-defined]
        os.open = broken() if breaks else os.whole  # type: ignore[attr-defined]

    # The workers do not have this module.
    import_module("cloudpickle").register_pickle_by_value(sys.modules[__name__])
    words = [COMPANION, "check", "--tml", os.path.abspath(TML), "d"]
    with mock.patch.object(os, "open", broken()):
        here = run_forked(*words, folder=test.folder)
    with Client(address, timeout=30) as client:
        client.run(change, True)
        command = [sys.executable, *words, "--cluster", address]
        there = subprocess.run(command, cwd=test.folder, env=with_own_bytecode(), capture_output=True, check=False)
        client.run(change, False)
    test.assertEqual((there.returncode, there.stdout, there.stderr), (here.status, here.out, here.error))
    *lines, summary, _ = here.out.decode().splitlines()
    test.assertEqual((here.status, summary), (2, f"{len(names)} files: 1 accepted, 0 with a fault, {len(names) - 1} not judged"))
    for line in lines:
        found = match_in(r"^d/(\w+)\.xml: not judged: (.*)$", line)
        said = os.strerror(int(found[1])).lower() if found[1].isdigit() else NO_MEMORY
        test.assertEqual(found[2] if found[1] not in set(bugs) - {"MemoryError"} else said, said)
        if found[2] != said:
            test.assertRegex(found[2], rf"^{found[1]}: '?bug'? {PLACE}$")
