"""The process in which `libraries` asks a library: it answers each question that comes over its standard input, which is a socket."""

from __future__ import annotations

import sys
from multiprocessing.connection import Connection

from tml.library import Library
from tml.running import CannotRun

PARTS = 3
"""A question is the words and two files."""


def main() -> int:
    """Says why the library cannot be loaded, or nothing; then answers questions until no more come."""
    connection = Connection(sys.stdin.fileno())
    try:
        library = Library(sys.argv[1])
    except CannotRun as error:
        connection.send_bytes(str(error).encode(errors="backslashreplace"))
        return 1
    connection.send_bytes(b"")
    while True:
        try:
            words, first, second = (connection.recv_bytes() for _ in range(PARTS))
        except EOFError:
            return 0
        status, text = library.call(words, first, second)
        connection.send_bytes(bytes((status,)) + text)


if __name__ == "__main__":
    sys.exit(main())
