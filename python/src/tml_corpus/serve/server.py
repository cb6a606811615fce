"""`tml-corpus serve`: a server of the Language Server Protocol over standard input and output.

One thread reads what the client sends, and another one answers it. What a later change has overtaken is dropped before it is
looked at, and else before the next question to `tml`. While nothing else waits, further faults are looked for. Once the client
has said that it goes nothing is published, and what hangs is ended.
"""

from __future__ import annotations

import os
import sys
from collections.abc import Callable
from dataclasses import dataclass, field
from functools import partial
from threading import Event, Thread
from typing import IO

from tml.attempts import cause
from tml.finding import find
from tml.running import Expected

from ..asking.program import CannotRun
from ..command_line.output import INPUT
from ..command_line.settings import Chosen, Settings, settings_for
from ..command_line.settings_file import Remembering
from ..files.finding import CannotRead
from ..lint.kinds import chosen
from .actions import ACTION_KINDS
from .answers import ANSWERS, Client
from .document import Asked, AskedUnwrapping, OpenDocument, Overtaken, path_of
from .findings import ERROR, findings, has_further, problem_finding, remark_finding
from .inbox import Inbox, Message, Unreadable
from .places import UTF_8, UTF_16

from .wire import (  # isort: skip
    BAD_PARAMS, CANCELLED, ENDING, FAILED, INTERNAL, INVALID, MODIFIED, NOT_INITIALIZED, PARSE, UNKNOWN, BadParams, Incoming, Json, Refused,
    member, send,
)  # fmt: skip


@dataclass
class Opened:
    """A document that is open: its state as the inbox counts it, its version, and what is still to be said of it."""

    document: OpenDocument
    state: int
    version: int
    remarks: tuple[str, ...]
    """What is wrong with the settings of its folder, or was passed by."""
    left: list[bool] = field(default_factory=lambda: [False, True])
    """Whether the further faults are wanted, for each time that something is to be said."""


class Server:
    """A server, which answers one client until that goes."""

    def __init__(self, tml: str | None, config: str | None, output: IO[bytes]) -> None:
        self.tml, self.config, self.output = tml, config, output
        self.inbox, self.client = Inbox(), Client()
        self.opened: dict[str, Opened] = {}
        self.programs: dict[tuple[str, ...], Asked] = {}
        self.settings = Remembering()

    def run(self, read: Callable[[int], bytes], stop: Event) -> int:
        """Answers until the client says that it ends, or goes; the status is 0 where it said `shutdown` before."""
        Thread(target=self.inbox.fill, args=(Incoming(read),), daemon=True).start()
        while not stop.is_set() and not self.inbox.is_over():
            arrived = self.inbox.take(waits=not self.has_work())
            if isinstance(arrived, Unreadable):
                self.answer_error(None, arrived.code, arrived.text)
            elif arrived is None:
                self.work()
            elif arrived.method == "exit":
                return 0 if self.client.shut_down else 1
            else:
                self.handle(arrived)
        if self.inbox.problem:
            raise CannotRead(self.inbox.problem)
        return 1

    def handle(self, message: Message) -> None:
        """Answers one message."""
        try:
            if message.is_request():
                result = self.asked(message)
                send(self.output, {"id": message.number, "result": result})
                if message.method == "initialize":
                    self.look_for_program()
            elif message.method in NOTICES and self.listens() and not self.inbox.is_overtaken(message.uri, message.state):
                NOTICES[message.method](self, message)
        except Refused as problem:
            self.answer_error(message.number, problem.code, str(problem))
        except BadParams as problem:
            self.answer_error(message.number, BAD_PARAMS, str(problem))
        except Overtaken:
            self.answer_error(message.number, *self.why_overtaken(message))
        except (Expected, MemoryError) as problem:
            is_late = self.inbox.ending.late.is_set()
            self.answer_error(message.number, *(self.why_overtaken(message) if is_late else (FAILED, str(problem) or "out of memory")))
        finally:
            self.inbox.done(message)

    def listens(self) -> bool:
        """Whether the client may say something of documents: it has greeted, and not said that it goes."""
        return self.client.initialized and not self.client.shut_down

    def why_overtaken(self, message: Message) -> tuple[int, str]:
        """Why the answer to a request is no longer wanted."""
        if message.cancelled:
            return CANCELLED, "cancelled"
        return (ENDING, "the server is ending") if self.inbox.ending.late.is_set() else (MODIFIED, "the document was changed")

    def look_for_program(self) -> None:
        """Tells the client if there is no `tml`. It is looked for again at each question, so that it may come later."""
        try:
            find(self.tml, "").needed()
        except CannotRun as problem:
            send(self.output, {"method": "window/showMessage", "params": {"type": ERROR, "message": f"tml-corpus serve: {problem}"}})

    def asked(self, message: Message) -> Json:
        """The answer to a request."""
        if message.method == "initialize":
            return self.initialize(message.params)
        if not self.client.initialized:
            raise Refused(NOT_INITIALIZED, "initialize comes first")
        if self.client.shut_down:
            raise Refused(INVALID, "after shutdown only exit may come")
        if message.method == "shutdown":
            self.client.shut_down = True
            return None
        if message.method not in ANSWERS:
            raise Refused(UNKNOWN, f"{message.method[:80]} is not a method of this server")
        if not self.is_wanted(message):
            raise Overtaken
        opened = self.opened.get(message.uri)
        if opened is None:
            raise Refused(BAD_PARAMS, "the document is not open")
        opened.document.program.wanted = partial(self.is_wanted, message)
        return self.without_slips(partial(ANSWERS[message.method], self.client, opened.document, message.params))

    def without_slips(self, work: Callable[[], Json]) -> Json:
        """Does some work, in which a slip of this program ends nothing else."""
        try:
            return work()
        except (Overtaken, BadParams, Refused, Expected, MemoryError):
            raise
        except Exception as error:
            raise Refused(INTERNAL, cause(error)) from error

    def is_wanted(self, message: Message) -> bool:
        """Whether the answer to a request is still wanted."""
        return not message.cancelled and not self.inbox.ending.late.is_set() and not self.inbox.is_overtaken(message.uri, message.state)

    def answer_error(self, number: Json, code: int, text: str) -> None:
        """Says why a request is not answered; nothing is answered to a notice."""
        if number is not None or code in (PARSE, INVALID):
            send(self.output, {"id": number, "error": {"code": code, "message": text}})

    def initialize(self, params: Json) -> Json:
        """What this server can do, and how places are counted."""
        if self.client.initialized:
            raise Refused(INVALID, "initialize comes once")
        offered = member(params, "capabilities", "general", "positionEncodings", kind=list, default=[])
        of_symbols = member(params, "capabilities", "textDocument", "documentSymbol", kind=dict, default={})
        tree = member(of_symbols, "hierarchicalDocumentSymbolSupport", kind=bool, default=False)
        encoding = UTF_8 if UTF_8 in offered else UTF_16
        self.client = Client(encoding, tree, creates_files(params), initialized=True)
        capabilities = {
            "positionEncoding": self.client.encoding,
            "textDocumentSync": {"openClose": True, "change": 1},
            "hoverProvider": True,
            "definitionProvider": True,
            "referencesProvider": True,
            "renameProvider": {"prepareProvider": True},
            "documentSymbolProvider": True,
            "completionProvider": {"triggerCharacters": ['"', "'", " ", "<", "/"]},
            "codeActionProvider": {"codeActionKinds": list(ACTION_KINDS)},
        }
        return {"capabilities": capabilities, "serverInfo": {"name": "tml-corpus serve"}}

    def open(self, message: Message) -> None:
        """Takes the text of a document that was opened."""
        given = member(message.params, "textDocument", kind=dict)
        self.take_text(message, member(given, "text", kind=str), member(given, "version", kind=int, default=0))

    def change(self, message: Message) -> None:
        """Takes the new text of a document, which comes whole; of several the last one counts."""
        changes = member(message.params, "contentChanges", kind=list)
        version = member(message.params, "textDocument", "version", kind=int, default=0)
        if changes and member(changes[-1], "range", default=None) is None:
            self.take_text(message, member(changes[-1], "text", kind=str), version)

    def take_text(self, message: Message, text: str, version: int) -> None:
        """Takes a text, of which there is something to say then."""
        path = path_of(message.uri)
        try:
            settings, remarks = settings_for([path] if path is not None else [], self.config, self.settings.read)
        except CannotRun as problem:
            settings, remarks = Chosen(Settings(), (str(problem),))
        lint = chosen(settings.ignore, settings.warn)
        document = OpenDocument(self.program(settings.wrappers), message.uri, text, lint, self.client.encoding)
        self.opened.pop(message.uri, None)
        self.opened[message.uri] = Opened(document, message.state, version, remarks)

    def program(self, wrappers: tuple[str, ...]) -> Asked:
        """`tml`, asked without wrappers of the corpus; it remembers what it said of dates."""
        if wrappers not in self.programs:
            self.programs[wrappers] = AskedUnwrapping("", wrappers) if wrappers else Asked("")
            self.programs[wrappers].chosen = self.tml
        return self.programs[wrappers]

    def close(self, message: Message) -> None:
        """Forgets a document."""
        if self.opened.pop(message.uri, None) is not None:
            self.publish(message.uri, None, [])

    def has_work(self) -> bool:
        """Whether there is something to say of some document, to a client that has not said that it goes."""
        return not self.inbox.ending.said.is_set() and any(one.left for one in self.opened.values())

    def work(self) -> None:
        """Says of the document that was changed last what there is to say; what is not wanted any more is left."""
        opened = next((one for one in reversed(self.opened.values()) if one.left), None)
        if opened is None or not self.has_work():
            return
        document, further = opened.document, opened.left[0]
        document.program.wanted = partial(self.is_next, opened, further)
        try:
            found = self.without_slips(partial(findings, document, further=further)) if not further or has_further(document) else None
        except Overtaken:
            if self.inbox.is_overtaken(document.uri, opened.state):
                opened.left.clear()
            return
        except (Refused, Expected, MemoryError) as problem:
            found = [problem_finding(str(problem) or "out of memory")]
            opened.left.clear()
        del opened.left[:1]
        if found is not None and not self.inbox.is_overtaken(document.uri, opened.state):
            self.publish(document.uri, opened.version, [*map(remark_finding, opened.remarks), *found])

    def is_next(self, opened: Opened, further: bool) -> bool:
        """Whether what is to be said of a document is wanted before what waits; further faults are not."""
        is_over = self.inbox.ending.said.is_set() or self.inbox.is_overtaken(opened.document.uri, opened.state)
        return not is_over and not (further and self.inbox.waiting)

    def publish(self, uri: str, version: int | None, found: list[Json]) -> None:
        """Tells the client what is said of a document; this takes the place of what was said before. One that goes is told nothing."""
        if self.inbox.ending.said.is_set():
            return
        params = {"uri": uri, "diagnostics": found} | ({} if version is None else {"version": version})
        send(self.output, {"method": "textDocument/publishDiagnostics", "params": params})


def creates_files(params: Json) -> bool:
    """Whether a client that greets makes a file where an edit says so."""
    operations = member(params, "capabilities", "workspace", "workspaceEdit", "resourceOperations", kind=list, default=[])
    return "create" in operations


NOTICES: dict[str, Callable[[Server, Message], None]] = {
    "textDocument/didOpen": Server.open,
    "textDocument/didChange": Server.change,
    "textDocument/didClose": Server.close,
}
"""What a client says of documents without waiting for an answer."""


def serve(tml: str | None, config: str | None, stop: Event) -> int:
    """Serves the client at standard input and output, and answers the status."""
    return Server(tml, config, sys.stdout.buffer).run(partial(os.read, INPUT), stop)
