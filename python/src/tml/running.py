"""Running a program: what it reads and prints passes by here, bounded in time and size, and it never outlives this process."""

from __future__ import annotations

import os
import select
import signal
import threading
import time
from collections.abc import Callable, Iterator, Sequence
from contextlib import contextmanager, suppress
from typing import IO, TYPE_CHECKING

if TYPE_CHECKING:
    import subprocess

__all__ = ["CannotRun"]

SECONDS = 300.0
"""No question takes `tml` more than a second or two; a run that is longer than this is given up."""

TOO_LONG = f"tml took longer than {SECONDS:.0f} seconds"

PART = 65536
"""How many bytes are read at once."""

RUNNING: set[subprocess.Popen[bytes]] = set()
"""The programs that this process has started and that have not ended."""


class Starts:
    """The programs that are being started, which are not among the running ones yet. A signal may come meanwhile."""

    def __init__(self) -> None:
        self.begun: set[object] = set()
        self.then: Callable[[], object] | None = None

    @contextmanager
    def one(self) -> Iterator[None]:
        """A program is being started. An interruption waits until it is: raised in the middle it would leave the program behind."""
        start, before, came = object(), signal.getsignal(signal.SIGINT), list[int]()
        is_held = before is signal.default_int_handler and threading.current_thread() is threading.main_thread()
        if is_held:
            signal.signal(signal.SIGINT, lambda number, _: came.append(number))
        self.begun.add(start)
        try:
            yield
        finally:
            self.begun.discard(start)
            if is_held:
                signal.signal(signal.SIGINT, before)
            if self.then is not None and not self.begun:
                self.then()
        if came:
            raise KeyboardInterrupt

    def after(self, then: Callable[[], object]) -> None:
        """Does this once no program is being started: at once, or when the last one is among those that run."""
        self.then = then
        if not self.begun:
            then()


STARTS = Starts()


def processors() -> int:
    """The number of processors that this process may use."""
    return len(os.sched_getaffinity(0)) if hasattr(os, "sched_getaffinity") else os.cpu_count() or 1


class Expected(Exception):
    """What the code expects to go wrong. Its text says all that a user has to know."""


class CannotRun(Expected):
    """A program could not be started, took too long, printed too much, or answered what it never should."""


def run(
    words: Sequence[str],
    document: bytes,
    most: int,
    other: IO[bytes] | None = None,
    take: Callable[[bytes], object] | None = None,
) -> tuple[int, bytes]:
    """The status of a program and what it printed: at most so many bytes. It reads the document, and may read an open file.

    Where something takes the parts of what it prints, nothing of that is kept here.
    No shell is used. The child gets a session of its own, so that Ctrl-C ends this program in its own way and does not end
    a judgement half-way.
    """
    import subprocess

    child = started(words, other)
    try:
        parts: list[bytes] = []
        talk = Talk(child, memoryview(document), most, take or parts.append)
        talk.go_on()
        status = ended(child, talk.seconds_left())
    except BaseException as error:
        end(child)
        if isinstance(error, subprocess.TimeoutExpired):
            raise CannotRun(TOO_LONG) from None
        raise
    finally:
        RUNNING.discard(child)
        for stream in (child.stdin, child.stdout):
            if stream is not None:
                with suppress(OSError):
                    stream.close()
    if status < 0:
        raise CannotRun(f"tml was ended by signal {-status}")
    return status, b"".join(parts)


def started(words: Sequence[str], other: IO[bytes] | None) -> subprocess.Popen[bytes]:
    """A program that was started, and is among the running ones."""
    import subprocess

    child = None
    try:
        with STARTS.one():
            child = subprocess.Popen(
                words,
                stdin=subprocess.PIPE,
                stdout=subprocess.PIPE,
                stderr=subprocess.DEVNULL,
                bufsize=0,
                start_new_session=True,
                # What Python opens is closed where another program begins, so that nothing has to be closed one by one.
                close_fds=other is not None,
                pass_fds=() if other is None else (other.fileno(),),
            )
            RUNNING.add(child)
    except (OSError, ValueError) as error:
        raise CannotRun(f"tml could not be run: {error}") from None
    except KeyboardInterrupt:
        if child is not None:
            end(child)
        raise
    return child


def ended(child: subprocess.Popen[bytes], seconds: float) -> int:
    """The status of a child that is about to end, within so many seconds.

    Where the system has handles of processes, its end is waited for by one. `Popen.wait` alone sleeps between looks when it has a limit.
    """
    if child.poll() is None and hasattr(os, "pidfd_open"):
        with suppress(OSError):
            handle, poll = os.pidfd_open(child.pid), select.poll()
            try:
                poll.register(handle, select.POLLIN)
                poll.poll(seconds * 1000)
            finally:
                os.close(handle)
    return child.wait(seconds)


def end(child: subprocess.Popen[bytes]) -> None:
    """Ends a child that was not waited for, with the programs that it started."""
    with suppress(OSError):
        os.killpg(child.pid, signal.SIGKILL)
    child.wait()


def end_all() -> None:
    """Ends the programs that are running; this process is about to end too."""
    for child in list(RUNNING):
        with suppress(OSError):
            os.killpg(child.pid, signal.SIGKILL)


class Talk:
    """What a child is still to read, and how much it has printed."""

    def __init__(self, child: subprocess.Popen[bytes], rest: memoryview, most: int, take: Callable[[bytes], object]) -> None:
        self.child, self.rest, self.most, self.take, self.size = child, rest, most, take, 0
        self.late = time.monotonic() + SECONDS

    def seconds_left(self) -> float:
        """How long the child may still take."""
        return max(self.late - time.monotonic(), 0.0)

    def go_on(self) -> None:
        """Writes and reads by turns, until the child has closed its output. What a pipe has room for is written without waiting."""
        streams = {stream.fileno(): stream for stream in (self.child.stdin, self.child.stdout) if stream is not None}
        poll = select.poll()
        for handle, stream in list(streams.items()):
            if stream is self.child.stdout:
                poll.register(handle, select.POLLIN)
                continue
            os.set_blocking(handle, False)
            if self.write(handle):
                poll.register(handle, select.POLLOUT)
            else:
                streams.pop(handle).close()
        while streams:
            ready = poll.poll(self.seconds_left() * 1000)
            if not ready:
                raise CannotRun(TOO_LONG)
            for handle, _ in ready:
                going_on = self.read(handle) if streams[handle] is self.child.stdout else self.write(handle)
                if not going_on:
                    poll.unregister(handle)
                    streams.pop(handle).close()

    def read(self, handle: int) -> bool:
        """Reads what there is; False at the end."""
        part = os.read(handle, PART)
        self.size += len(part)
        if self.size > self.most:
            raise CannotRun(f"tml printed more than {self.most:,} bytes")
        self.take(part)
        return bool(part)

    def write(self, handle: int) -> bool:
        """Writes as much as there is room for; False where nothing is left, or where the child reads no more."""
        try:
            self.rest = self.rest[os.write(handle, self.rest[:PART]) :]
        except BlockingIOError:
            pass
        except OSError:
            return False
        return bool(self.rest)
