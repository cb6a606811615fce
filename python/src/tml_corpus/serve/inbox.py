"""What a client has sent and what was not looked at yet; and what of it was overtaken, so that it need not be."""

from __future__ import annotations

import json
from collections import deque
from dataclasses import dataclass
from threading import Condition

from .ending import Ending
from .wire import INVALID, PARSE, BrokenWire, Incoming, Json, member

MOST_WAITING = 4096
"""How many messages wait at most; the rest waits in the pipe."""

CHANGES = ("textDocument/didOpen", "textDocument/didChange", "textDocument/didClose")
CANCEL = "$/cancelRequest"
GOING = ("shutdown", "exit")

SOON, LATER = 1.0, 10.0
"""How many seconds a question may still take once the client has said that it goes, and once it is gone and may still read."""


@dataclass
class Message:
    """A message: what it asks for, its number where it is a request, the document that it is about, and the state of that which it saw."""

    method: str
    params: Json
    number: Json = None
    uri: str = ""
    state: int = 0
    cancelled: bool = False

    def is_request(self) -> bool:
        """Whether the client waits for an answer."""
        return self.number is not None


@dataclass(frozen=True)
class Unreadable:
    """A body that is not a message: the number of the error, and what is wrong."""

    code: int
    text: str


Arrived = Message | Unreadable


def read_message(body: bytes) -> Arrived | None:
    """The message of a body; None of an answer to something that this server never asked."""
    try:
        value = json.loads(body)
    except (ValueError, RecursionError):
        return Unreadable(PARSE, "a message is not JSON")
    method, number = member(value, "method", kind=str, default=None), member(value, "id", kind=(int, str), default=None)
    if method is None:
        return None if isinstance(value, dict) and "id" in value else Unreadable(INVALID, "a message has no method")
    if number is None and value.get("id") is not None:
        return Unreadable(INVALID, "the id of a request is a whole number or a text")
    params = member(value, "params", default={})
    return Message(method, params, number, member(params, "textDocument", "uri", kind=str, default=""))


class Inbox:
    """The messages that wait, put here by one thread and taken by another one."""

    def __init__(self) -> None:
        self.ending = Ending()
        self.waiting: deque[Arrived] = deque()
        self.moved = Condition()
        self.states: dict[str, int] = {}
        self.changes: dict[str, Message] = {}
        self.requests: dict[Json, Message] = {}
        self.ended = False
        self.problem = ""

    def fill(self, incoming: Incoming) -> None:
        """Puts in what comes, until nothing comes any more."""
        try:
            while (body := incoming.body()) is not None:
                self.put(read_message(body))
        except (BrokenWire, OSError, MemoryError) as problem:
            self.problem = str(problem) or "out of memory"
        self.ending.begin(LATER)
        with self.moved:
            self.ended = True
            self.moved.notify_all()

    def put(self, arrived: Arrived | None) -> None:
        """Puts one message in, or notes what it overtakes."""
        if isinstance(arrived, Message) and arrived.method in GOING:
            self.ending.begin(SOON)
        with self.moved:
            self.moved.wait_for(lambda: len(self.waiting) < MOST_WAITING)
            if isinstance(arrived, Message):
                if arrived.method == CANCEL:
                    self.cancel(member(arrived.params, "id", kind=(int, str), default=None))
                    return
                self.note(arrived)
            if arrived is not None:
                self.waiting.append(arrived)
                self.moved.notify_all()

    def cancel(self, number: Json) -> None:
        """Notes that a request need not be answered."""
        if number in self.requests:
            self.requests[number].cancelled = True

    def note(self, message: Message) -> None:
        """Notes the state of the document that a message sees; a change makes a new one, and the text of the last one is let go."""
        if message.method in CHANGES:
            self.states[message.uri] = self.states.get(message.uri, 0) + 1
            before = self.changes.get(message.uri)
            if before is not None:
                before.params = None
            self.changes[message.uri] = message
        if message.is_request():
            self.requests[message.number] = message
        message.state = self.states.get(message.uri, 0)

    def take(self, *, waits: bool, seconds: float = 1.0) -> Arrived | None:
        """The next message; None where there is none, or where none came in so many seconds."""
        with self.moved:
            if waits:
                self.moved.wait_for(lambda: self.waiting or self.ended, seconds)
            arrived = self.waiting.popleft() if self.waiting else None
            if isinstance(arrived, Message) and self.changes.get(arrived.uri) is arrived:
                del self.changes[arrived.uri]
            self.moved.notify_all()
            return arrived

    def done(self, message: Message) -> None:
        """Notes that a request was answered."""
        if self.requests.get(message.number) is message:
            del self.requests[message.number]

    def is_overtaken(self, uri: str, state: int) -> bool:
        """Whether a change of a document has come since this state of it."""
        return self.states.get(uri, 0) != state

    def is_over(self) -> bool:
        """Whether nothing waits, and nothing will come."""
        return self.ended and not self.waiting
