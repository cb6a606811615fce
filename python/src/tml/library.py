"""The library `libtml` in this process: the same answers as those of the program, without a process and without files."""

from __future__ import annotations

import ctypes
import threading
from collections.abc import Sequence

from .running import CannotRun

__all__ = ["Library"]

ROOM, MOST_KEPT = 1 << 16, 1 << 20
"""How many bytes of room a text has at first, and how many are kept from call to call at most."""

FILES = ("first", "second")
"""The names by which words mean the files of a call."""


class Library:
    """The library that lies in a file, or that the system's loader finds. Threads may ask it at once: Python goes on while it works."""

    def __init__(self, path: str) -> None:
        try:
            answer = ctypes.CDLL(path).tml_answer
        except (OSError, AttributeError) as error:
            raise CannotRun(f"the library {path} cannot be loaded: {error}") from None
        piece = (ctypes.c_char_p, ctypes.c_size_t)
        answer.argtypes = (*piece, *piece, *piece, ctypes.c_void_p, ctypes.c_size_t, ctypes.POINTER(ctypes.c_size_t))
        answer.restype = ctypes.c_uint8
        self.path, self._answer, self._kept = path, answer, threading.local()

    def __reduce__(self) -> tuple[type[Library], tuple[str]]:
        """Its path alone goes to another process, which loads it anew."""
        return Library, (self.path,)

    def answer(self, command: str, files: Sequence[bytes], arguments: Sequence[str] = ()) -> tuple[int, bytes]:
        """The status and the text of a command over files, two at most, with the words that follow them. No word has a zero byte."""
        first, second = (*files, b"", b"")[:2]
        words = (command, *FILES[: len(files)], *arguments)
        return self.call("".join(f"{word}\0" for word in words).encode(), first, second)

    def call(self, words: bytes, first: bytes, second: bytes) -> tuple[int, bytes]:
        """The same of words as they cross: each is ended by a zero byte, and they name the files `first` and `second`."""
        given = (words, len(words), first, len(first), second, len(second))
        needed = ctypes.c_size_t()
        room = getattr(self._kept, "room", None) or ctypes.create_string_buffer(ROOM)
        while True:
            status = self._answer(*given, room, len(room), ctypes.byref(needed))
            if len(room) <= MOST_KEPT:
                self._kept.room = room
            if needed.value <= len(room):
                return status, ctypes.string_at(room, needed.value)
            room = ctypes.create_string_buffer(needed.value)
