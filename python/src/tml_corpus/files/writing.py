"""How this process ends: what ends it waits while a file is being written, and nothing that it began stays behind."""

from __future__ import annotations

import os
import signal
import threading
import time
from collections.abc import Callable, Iterator
from contextlib import contextmanager
from functools import partial

from tml.running import STARTS, end_all

WRITING = threading.RLock()
"""Is held while a file has its other name. What ends this process takes it first."""

ENDING = (signal.SIGINT, signal.SIGTERM, signal.SIGHUP)
"""The signals that end a program and can wait."""


@contextmanager
def unbroken() -> Iterator[None]:
    """Lets signals that end the program wait until a file is written. They come to its first thread, so in others only the lock is held."""
    with WRITING:
        if threading.current_thread() is not threading.main_thread():
            yield
            return
        came: list[int] = []
        before = {number: signal.signal(number, lambda number, _: came.append(number)) for number in ENDING}
        try:
            yield
        finally:
            for number, handler in before.items():
                signal.signal(number, handler)
            for one in came:
                signal.raise_signal(one)


PATIENCE = 2.0
"""For how many seconds it is tried to take away a folder in which a process may still write."""

FOLDERS: set[str] = set()
"""The folders that are there only while something is done."""


@contextmanager
def folder_for_a_while() -> Iterator[str]:
    """A folder of this user alone for files that are needed for a while. It goes with them, also when a signal ends this process."""
    import tempfile

    folder = os.path.join(tempfile.gettempdir(), f"tml-{os.urandom(8).hex()}")
    FOLDERS.add(folder)
    try:
        os.mkdir(folder, 0o700)
        yield folder
    finally:
        with unbroken():
            take_away(folder)
            FOLDERS.discard(folder)


FORKED: set[Callable[[], object]] = set()
"""What ends processes that this one has forked, and waits for them: a file that one of them is at is written whole before that."""


def take_away(folder: str) -> None:
    """Takes a folder away with all that is in it. A process that was just ended may for a moment still write there."""
    import shutil

    late = time.monotonic() + PATIENCE
    while os.path.lexists(folder) and time.monotonic() < late:
        shutil.rmtree(folder, ignore_errors=True)


def end_by_signals() -> None:
    """Has the signals by which systems, editors and terminals end a program end what it has started too."""
    for number in (signal.SIGTERM, signal.SIGHUP):
        if signal.getsignal(number) is signal.SIG_DFL:
            # A program that is just being started is waited for.
            signal.signal(number, lambda number, _: STARTS.after(partial(end_now, number)))


def end_now(number: int) -> None:
    """Ends what runs, takes away what is there for a while, and ends this process by this signal."""
    end_all()
    for end in list(FORKED):
        end()
    with WRITING:
        for folder in FOLDERS:
            take_away(folder)
        signal.signal(number, signal.SIG_DFL)
        os.kill(os.getpid(), number)
