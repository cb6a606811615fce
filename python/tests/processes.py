"""What the tests need to know of other processes."""

import os
import signal
import subprocess
import sys
import time
from collections.abc import Callable
from pathlib import Path

BARE = (sys.executable, "-S")
"""This interpreter without the packages of its machine, and what they do whenever it begins: most tools need none of them."""

WITH_PACKAGES = (sys.executable,)
"""This interpreter with the packages of its machine."""

PATIENCE = 300.0
"""How many seconds a test waits for what takes a moment, so that it fails rather than hangs, however busy the machine is."""


ENDED = "Z"
"""The state of a process that has ended and is waited for, and the one that stands for no process."""


def state_and_parent(number: int) -> tuple[str, int]:
    """The state of a process as the system names it, such as S while it sleeps, and the number of the one that started it."""
    try:
        state, parent, *_ = Path(f"/proc/{number}/stat").read_text(encoding="utf-8").rsplit(") ", 1)[1].split()
    except OSError:
        return ENDED, 0
    return state, int(parent)


def is_running(number: int) -> bool:
    """Whether a process is there and not only waited for."""
    return state_and_parent(number)[0] != ENDED


def children_of(number: int) -> set[int]:
    """The processes that a process has started and not yet waited for."""
    processes = (int(path.name) for path in Path("/proc").iterdir() if path.name.isdigit())
    return {child for child in processes if state_and_parent(child)[1] == number}


def processor_time_of(number: int) -> float:
    """How many seconds of processor time a process has taken, with its children that have ended."""
    fields = Path(f"/proc/{number}/stat").read_text(encoding="utf-8").rsplit(") ", 1)[1].split()
    return sum(map(int, fields[11:15])) / os.sysconf("SC_CLK_TCK")


def interrupt(child: subprocess.Popen[bytes]) -> None:
    """Sends Ctrl-C to a process, and waits until it has taken note: the signal woke it, and it sleeps again or has ended."""
    child.send_signal(signal.SIGINT)
    until(lambda: state_and_parent(child.pid)[0] in ("S", ENDED))


def until(happens: Callable[[], object]) -> None:
    """Waits until something happens."""
    late = time.monotonic() + PATIENCE
    while not happens():
        if time.monotonic() > late:
            raise TimeoutError(f"not within {PATIENCE} seconds")
        time.sleep(0.02)


def with_own_bytecode() -> dict[str, str]:
    """The environment of what imports packages of the machine, which have their compiled modules next to them."""
    return {name: value for name, value in os.environ.items() if name != "PYTHONPYCACHEPREFIX"} | {"PYTHONDONTWRITEBYTECODE": "1"}
