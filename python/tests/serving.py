"""An editor for the tests of `tml-corpus serve`: it speaks the protocol over pipes."""

from __future__ import annotations

import json
import os
import signal
from typing import Any

from corpus import COMPANION, TML, TOP, CorpusTest
from forked import Forked
from tml.tags.edits import Edit, applied
from tml_corpus.lint.kinds import chosen
from tml_corpus.serve.document import Asked, OpenDocument
from tml_corpus.serve.places import UTF_8, UTF_16, ClientPlaces
from tml_corpus.serve.wire import Incoming

Json = Any
Position = dict[str, int]


def state_of(text: str | bytes, program: Asked | None = None) -> OpenDocument:
    """A document as the server has it for an editor that counts bytes."""
    if program is None:
        program = Asked("")
        program.chosen = TML
    found = OpenDocument(program, "file:///d.xml", "", chosen((), ()), UTF_8)
    found.text = text if isinstance(text, bytes) else text.encode()
    return found


def done(state: OpenDocument, action: Json) -> bytes:
    """The document after an action."""
    [edits] = action["edit"]["changes"].values()
    return applied(state.text, [Edit(*state.places.stretch(one["range"]), one["newText"].encode()) for one in edits])


class Client:
    """An editor: it sends, and takes what comes."""

    def __init__(self, folder: str, *words: str, tml: str = TML, **environment: str) -> None:
        pipes = [[os.fdopen(end, mode) for end, mode in zip(os.pipe(), ("rb", "wb"))] for _ in range(3)]
        (given, self.input), (self.output, out), (self.errors, error) = pipes
        with given, out, error:
            command = [COMPANION, "serve", "--tml", tml, *words]
            self.child = Forked(command, folder, (given, out, error), {**os.environ, **environment})
        self.incoming = Incoming(lambda size: os.read(self.output.fileno(), size))
        self.number = 0
        self.told: list[Json] = []

    def send(self, *messages: bytes | dict[str, Json]) -> None:
        """Sends messages at once, as they may lie together in a pipe."""
        bodies = [one if isinstance(one, bytes) else json.dumps({"jsonrpc": "2.0", **one}).encode() for one in messages]
        self.input.write(b"".join(b"Content-Length: %d\r\n\r\n%s" % (len(body), body) for body in bodies))
        self.input.flush()

    def receive(self) -> Json:
        """The next message."""
        body = self.incoming.body()
        assert body is not None, self.errors.read()
        return json.loads(body)

    def request(self, method: str, params: Json) -> dict[str, Json]:
        """A request with a number of its own."""
        self.number += 1
        return {"id": self.number, "method": method, "params": params}

    def answer(self, number: int | str) -> Json:
        """The answer to a request; what else comes is kept."""
        while (message := self.receive()).get("id") != number or "method" in message:
            self.told.append(message)
        return message

    def reply(self, method: str, params: Json = None) -> Json:
        """The answer to a new request, be it a result or an error."""
        self.send(self.request(method, params))
        return self.answer(self.number)

    def ask(self, method: str, params: Json = None) -> Json:
        """The result of a new request."""
        return self.reply(method, params)["result"]

    def refusal(self, method: str, params: Json = None) -> str:
        """Why a new request is not answered."""
        return str(self.reply(method, params)["error"]["message"])

    def tell(self, method: str, params: Json) -> None:
        """Sends a notice."""
        self.send({"method": method, "params": params})

    def next(self, method: str) -> Json:
        """What is said next by a notice of this name."""
        while True:
            message = self.told.pop(0) if self.told else self.receive()
            if message.get("method") == method:
                return message["params"]

    def findings(self, version: int | None = None) -> list[Json]:
        """What is said next of a document, in a version where one is given."""
        while True:
            said = self.next("textDocument/publishDiagnostics")
            if version is None or said.get("version") == version:
                return list(said["diagnostics"])

    def close(self) -> None:
        """Ends the server where it has not ended."""
        self.child.send_signal(signal.SIGKILL)
        self.child.wait(60)
        for stream in (self.input, self.output, self.errors):
            try:
                stream.close()
            except BrokenPipeError:
                pass


class ServeTest(CorpusTest):
    """A test with an editor and one document."""

    text = ""
    can: Json = None
    version = 1

    def started(self, *words: str, tml: str = TML, **environment: str) -> Client:
        """An editor that has not said anything."""
        client = Client(self.folder, *words, tml=tml, **environment)
        self.addCleanup(client.close)
        return client

    def client(self, *words: str, **capabilities: Json) -> Client:
        """An editor that has begun to talk."""
        client = self.started(*words)
        self.greet(client, **capabilities)
        return client

    def greet(self, client: Client, **capabilities: Json) -> None:
        """Begins to talk."""
        self.can = client.ask("initialize", {"processId": None, "rootUri": None, "capabilities": capabilities})["capabilities"]
        client.tell("initialized", {})

    def uri(self, name: str = "d.xml") -> str:
        """The name of a document for the editor."""
        return "file://" + self.path(name)

    def opened(self, client: Client, text: str, name: str = "d.xml") -> list[Json]:
        """Opens a document, and answers what is said of it at first."""
        self.text = text
        client.tell("textDocument/didOpen", {"textDocument": {"uri": self.uri(name), "languageId": "xml", "version": 1, "text": text}})
        return client.findings(1)

    def changed(self, client: Client, text: str, version: int, name: str = "d.xml") -> list[Json]:
        """Changes it, and answers what is said of it at first."""
        self.text = text
        client.tell("textDocument/didChange", self.change(text, version, name))
        return client.findings(version)

    def change(self, text: str, version: int, name: str = "d.xml") -> Json:
        """What an editor says of a change."""
        return {"textDocument": {"uri": self.uri(name), "version": version}, "contentChanges": [{"text": text}]}

    def at(self, needle: str, more: int = 0) -> Position:
        """The position of a text in the document."""
        before = self.text[: self.text.index(needle) + more]
        line = before.rfind("\n") + 1
        return {"line": before.count("\n"), "character": len(before[line:].encode("utf-16-le")) // 2}

    def about(self, needle: str, more: int = 0) -> Json:
        """What a request about this position says."""
        return {"textDocument": {"uri": self.uri()}, "position": self.at(needle, more)}

    def hover(self, client: Client, needle: str, more: int = 0) -> Json:
        """What is said of a place, without its escapes."""
        found = client.ask("textDocument/hover", self.about(needle, more))
        return found and found["contents"]["value"].replace("\\", "")

    def stretch(self, given: Json) -> str:
        """The text of a range."""
        lines = self.text.split("\n")
        first, last = given["start"], given["end"]
        self.assertEqual(first["line"], last["line"])
        line: str = lines[first["line"]]
        return line.encode("utf-16-le")[2 * first["character"] : 2 * last["character"]].decode("utf-16-le")

    def actions(self, client: Client, needle: str, end: str = "", **context: Json) -> list[Json]:
        """What can be done at a text, or from the one to the end of the other."""
        start = self.at(needle)
        last = self.at(end, len(end)) if end else start
        given = {"textDocument": {"uri": self.uri()}, "range": {"start": start, "end": last}, "context": {"diagnostics": [], **context}}
        return list(client.ask("textDocument/codeAction", given))

    def applied(self, action: Json) -> str:
        """The document after the edits of an action, or of a rename."""
        [edits] = action.get("edit", action)["changes"].values()
        text, places = self.text.encode(), ClientPlaces(self.text.encode(), UTF_16)
        for edit in sorted(edits, key=lambda edit: (edit["range"]["start"]["line"], edit["range"]["start"]["character"]), reverse=True):
            start, end = places.stretch(edit["range"])
            text = text[:start] + edit["newText"].encode() + text[end:]
        return text.decode()

    def sample(self, name: str) -> str:
        """A document of the samples."""
        with open(os.path.join(TOP, "samples", name), encoding="utf-8") as file:
            return file.read()
