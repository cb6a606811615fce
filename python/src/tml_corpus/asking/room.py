"""Room for long documents, which are taken apart one at a time: what is known of the parts of one may take some hundred MiB."""

from __future__ import annotations

import fcntl
import os
import threading
from collections.abc import Iterator
from contextlib import AbstractContextManager, contextmanager

from tml.running import CannotRun
from tml.statuses import MANY_BYTES

from ..files.finding import Found, read_document


class SharedLock:
    """A lock that forked processes share. The system takes it from a process that ends with it."""

    def __init__(self) -> None:
        try:
            self.handle = os.memfd_create("tml-corpus") if hasattr(os, "memfd_create") else file_without_a_name()
        except OSError as error:
            raise CannotRun(f"processes of Python cannot share a lock here: {error}") from None

    def __enter__(self) -> None:
        fcntl.lockf(self.handle, fcntl.LOCK_EX)

    def __exit__(self, *error: object) -> None:
        fcntl.lockf(self.handle, fcntl.LOCK_UN)

    def close(self) -> None:
        """Lets go of it, where no process needs it any more."""
        os.close(self.handle)


def file_without_a_name() -> int:
    """A file that is there as long as it is open."""
    import tempfile

    with tempfile.TemporaryFile() as file:
        return os.dup(file.fileno())


class Room:
    """The lock that lets long documents be taken apart one at a time.

    Forked processes set one that they share; else it is made where it is needed, and shared by the threads.
    """

    locks: dict[str, AbstractContextManager[object]] = {}

    @classmethod
    def share(cls, lock: AbstractContextManager[object]) -> None:
        """Sets the lock."""
        cls.locks["lock"] = lock

    @classmethod
    def lock(cls) -> AbstractContextManager[object]:
        """The lock."""
        return cls.locks.setdefault("lock", threading.Lock())


@contextmanager
def room_for(document: bytes) -> Iterator[None]:
    """Lets long documents be taken apart one at a time."""
    if len(document) <= MANY_BYTES:
        yield
        return
    with Room.lock():
        yield


@contextmanager
def document_of(found: Found) -> Iterator[bytes]:
    """The document of a file, read, with room for it."""
    document = read_document(found.place())
    with room_for(document):
        yield document
