"""The environment of a run of `tools/tests`: the same for every caller, so that the verdict depends on the tree alone.

The tests run in a new process with Debian's Python if there is one, with their own temporary and home folder, and with none of the
caller's variables except those that name the programs under test. This module starts that process, in whatever Python the caller has, so
it imports the standard library alone.
"""

from __future__ import annotations

import os
import resource
import shlex
import shutil
import signal
import subprocess
import sys
import tempfile
from collections.abc import Sequence
from pathlib import Path
from typing import NoReturn

TESTS = Path(__file__).resolve().parent
TOP = TESTS.parents[1]

DEBIAN_PYTHON = "/usr/bin/python3"
"""The interpreter that has Debian's packages."""

NEW_ENOUGH = "import sys; sys.exit(sys.version_info < (3, 11))"

PROGRAMS = "/usr/local/sbin:/usr/local/bin:/usr/sbin:/usr/bin:/sbin:/bin"
"""The folders in which the tests find programs."""

NAMED = ("TML", "TML_LIBRARY", "TML_ROWS", "TML_VERIFY", "TML_ARCHIVE", "TML_WEB")
"""The variables of the caller that are kept: each names a file that is tested."""

LIMITS = {
    resource.RLIMIT_AS: resource.RLIM_INFINITY,
    resource.RLIMIT_CORE: 0,
    resource.RLIMIT_CPU: resource.RLIM_INFINITY,
    resource.RLIMIT_DATA: resource.RLIM_INFINITY,
    resource.RLIMIT_FSIZE: resource.RLIM_INFINITY,
    resource.RLIMIT_NOFILE: 1024,
    resource.RLIMIT_STACK: 8 << 20,
}
"""The limits of the run, as far as those of the caller allow them."""


def run_tests(arguments: Sequence[str]) -> int:
    """Runs all_tests.py with these arguments in an environment of its own, and answers its status."""
    signal.signal(signal.SIGTERM, end)
    # If the caller ignores it, the status of the tests is lost.
    signal.signal(signal.SIGCHLD, signal.SIG_DFL)
    os.umask(0o022)
    folder = Path(tempfile.mkdtemp(prefix="tests-", dir="/tmp")).resolve()
    try:
        command = [interpreter(), str(TESTS / "all_tests.py"), *arguments]
        return status_of(command, prepared(folder, command[0]))
    finally:
        shutil.rmtree(folder, ignore_errors=True)
        if folder.exists():
            print(f"tests: {folder} cannot be removed", file=sys.stderr)


def status_of(command: Sequence[str], variables: dict[str, str]) -> int:
    """The status of the tests, which run in a session without a terminal. Nothing that they start in it survives them."""
    with subprocess.Popen(
        command, cwd=TOP, env=variables, stdin=subprocess.DEVNULL, start_new_session=True, preexec_fn=take_defaults
    ) as child:
        try:
            os.waitid(os.P_PID, child.pid, os.WEXITED | os.WNOWAIT)
        finally:
            os.killpg(child.pid, signal.SIGKILL)
        return child.wait()


def end(number: int, _: object) -> NoReturn:
    """Ends this process after a signal, once the tests have ended and the folder is removed."""
    sys.exit(128 + number)


def interpreter() -> str:
    """Debian's Python if it is there and new enough, else this one, else that of the caller."""
    for python in (DEBIAN_PYTHON, sys.executable, shutil.which("python3")):
        if python is not None and os.access(python, os.X_OK):
            if subprocess.run([python, "-I", "-S", "-c", NEW_ENOUGH], check=False).returncode == 0:
                return python
    sys.exit("tests: Python 3.11 is needed")


def prepared(folder: Path, python: str) -> dict[str, str]:
    """The variables of the run. Its folder is the home of the tests, and has a folder for temporary files and one for programs."""
    folder.chmod(0o755)
    temporary, programs = folder / "tmp", folder / "bin"
    temporary.mkdir()
    # As for /tmp: some tests also work as another user.
    temporary.chmod(0o1777)
    programs.mkdir(mode=0o755)
    # A link would lose the packages of a virtual environment.
    (programs / "python3").write_text(f'#!/bin/sh\nexec {shlex.quote(python)} "$@"\n', encoding="utf-8")
    (programs / "python3").chmod(0o755)
    kit = shutil.which("rt")
    if kit is not None:
        (programs / "rt").symlink_to(os.path.abspath(kit))
    # The name of a file may be relative to the folder of the caller.
    named = {name: os.path.abspath(value) if value else value for name in NAMED if (value := os.environ.get(name)) is not None}
    return {
        **named,
        "HOME": str(folder),
        "LC_ALL": "C.UTF-8",
        "PATH": f"{programs}:{PROGRAMS}",
        "PYTHONDONTWRITEBYTECODE": "1",
        # Sets have the same order in each run.
        "PYTHONHASHSEED": "0",
        "TMPDIR": str(temporary),
        "TZ": "UTC",
    }


def take_defaults() -> None:
    """Gives the new process the usual limits and signals, whatever those of the caller are."""
    for limit, wanted in LIMITS.items():
        _, most = resource.getrlimit(limit)
        is_allowed = most == resource.RLIM_INFINITY or wanted != resource.RLIM_INFINITY and wanted <= most
        resource.setrlimit(limit, (wanted if is_allowed else most, most))
    for number in signal.valid_signals() - {signal.SIGKILL, signal.SIGSTOP}:
        signal.signal(number, signal.SIG_DFL)
    signal.pthread_sigmask(signal.SIG_SETMASK, ())
