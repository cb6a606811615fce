"""The wire of the Language Server Protocol: messages in JSON, each with a head that says how long it is."""

from __future__ import annotations

import json
from collections.abc import Callable
from typing import IO, Any

from tml.running import PART

Json = Any
"""A value of JSON, from a client that may send anything: it is looked at by `member` before it is used."""

END_OF_HEAD = b"\r\n\r\n"
LONGEST_HEAD = 4096
LONGEST_BODY = 64 * 1024 * 1024
"""How many bytes a message may have: a document of 4 MiB takes six times as many where each byte of it is escaped."""


class BrokenWire(Exception):
    """The client does not speak the protocol, so that the beginning of its next message is not known."""


PARSE, INVALID, UNKNOWN, BAD_PARAMS, INTERNAL = -32700, -32600, -32601, -32602, -32603
NOT_INITIALIZED, CANCELLED, MODIFIED, ENDING, FAILED = -32002, -32800, -32801, -32802, -32803
"""The numbers of errors in the protocol."""


class BadParams(Exception):
    """A message lacks something, or has something of another kind."""


class Refused(Exception):
    """A request is not answered, with the number of an error."""

    def __init__(self, code: int, text: str) -> None:
        super().__init__(text)
        self.code = code


class Incoming:
    """The messages that come in."""

    def __init__(self, read: Callable[[int], bytes]) -> None:
        self.read, self.buffer = read, b""

    def body(self) -> bytes | None:
        """The body of the next message, or None where there is none any more."""
        head = self.head()
        if head is None:
            return None
        length = length_in(head)
        parts, missing = [self.buffer[:length]], length - len(self.buffer)
        self.buffer = self.buffer[length:]
        while missing > 0:
            part = self.read(min(missing, PART))
            if not part:
                raise BrokenWire("the input ends within a message")
            parts.append(part)
            missing -= len(part)
        return b"".join(parts)

    def head(self) -> bytes | None:
        """The head of the next message."""
        while END_OF_HEAD not in self.buffer:
            if len(self.buffer) > LONGEST_HEAD:
                raise BrokenWire(f"the head of a message has more than {LONGEST_HEAD} bytes")
            part = self.read(PART)
            if not part and self.buffer.strip():
                raise BrokenWire("the input ends within the head of a message")
            if not part:
                return None
            self.buffer += part
        head, self.buffer = self.buffer.split(END_OF_HEAD, 1)
        return head


def length_in(head: bytes) -> int:
    """The length that a head says the body has."""
    for line in head.split(b"\r\n"):
        name, _, value = line.partition(b":")
        if name.strip().lower() == b"content-length" and value.strip().isdigit() and len(value.strip()) < 12:
            length = int(value)
            if length > LONGEST_BODY:
                raise BrokenWire(f"a message of {length:,} bytes is too long: {LONGEST_BODY:,} are read")
            return length
    raise BrokenWire("the head of a message has no Content-Length")


def send(output: IO[bytes], message: dict[str, Json]) -> None:
    """Writes a message. What is not a character becomes a question mark."""
    body = json.dumps({"jsonrpc": "2.0", **message}, ensure_ascii=False, separators=(",", ":")).encode("utf-8", "replace")
    output.write(b"Content-Length: %d\r\n\r\n%s" % (len(body), body))
    output.flush()


def member(value: Json, *path: str, kind: type | tuple[type, ...] = object, default: Json = BadParams) -> Json:
    """What stands in an object at a path, where it is of this kind; else the default, or no answer where there is none.

    To Python a truth value is a number too; here it is not.
    """
    for name in path:
        value = value.get(name) if isinstance(value, dict) else None
    kinds = kind if isinstance(kind, tuple) else (kind,)
    if isinstance(value, kinds) and value is not None and not (int in kinds and isinstance(value, bool)):
        return value
    if default is BadParams:
        raise BadParams(f"{'.'.join(path)} is missing, or of another kind")
    return default
