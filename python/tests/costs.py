"""What the companions take for hard documents: `python3 python/tests/costs.py` measures each command over each shape of `costly`.

It prints a row for each shape and command that takes more than a second, more than 300 MiB, or more than 2.5 times as much for twice the
size. `--share 0.1` measures documents of a tenth of the limits, and `--all` prints all rows.
"""

from __future__ import annotations

import argparse
import json
import os
import resource
import signal
import sys
import tempfile
import traceback
from collections.abc import Callable, Iterable, Iterator
from dataclasses import dataclass
from fnmatch import fnmatchcase
from pathlib import Path
from typing import Any

import tml
from corpus import COMPANION, TML, TOOLS
from costly import BROKEN, SHAPES, SHORT
from forked import become, import_ahead

SECONDS, MEBIBYTES, GROWTH = 5.0, 300, 2.5
"""What a command may take at the limits: processor time, memory, and for twice the size times what it takes for the size."""

BEGINNING = 0.3
"""How many seconds the beginning of a process may take, however small its document is."""

TRIES = 3
"""How often a process is measured that seems to take too long: on a busy machine one may take more than it needs."""

SLOWEST = 4
"""How many times slower a machine may be than the one of these figures. What grows too fast is seen on any machine."""

SHOWN_SECONDS = 1.0
PATIENCE = 150
"""After how many seconds of processor time a process is ended."""

Words = Callable[[str], list[str]]


def companion(*words: str) -> Words:
    """The arguments of a command of `tml-corpus` over a document."""
    return lambda path: [COMPANION, words[0], "--tml", TML, *words[1:], path]


def serving(path: str) -> list[str]:
    """A session of an editor, which comes by standard input."""
    return [COMPANION, "serve", "--tml", TML]


def tool(name: str, *words: str) -> Words:
    """The arguments of another program over a document."""
    return lambda path: [os.path.join(TOOLS, name), *words, path]


COMMANDS: dict[str, Words] = {
    "check": companion("check"),
    "check --lint": companion("check", "--lint", "--warn", "unknown-attribute", "--format", "json"),
    "check --clashes --more 20": companion("check", "--clashes", "--lint", "--more", "20"),
    "check --more 20, GitHub": companion("check", "--more", "20", "--format", "github"),
    "check --more 20, JUnit": companion("check", "--more", "20", "--format", "junit"),
    "clashes": companion("clashes", "--more", "3"),
    "clashes --repair": companion("clashes", "--repair", "--format", "json"),
    "clashes --touching": companion("clashes", "--touching"),
    "tags": companion("tags"),
    "fix": companion("fix"),
    "fix --unsafe": companion("fix", "--unsafe"),
    "open": companion("open", "--jobs", "1"),
    "open --pairs 20": companion("open", "--pairs", "20", "--jobs", "1"),
    "agree": lambda path: [COMPANION, "agree", "--tml", TML, "--jobs", "1", path, path],
    "agree --links": lambda path: [COMPANION, "agree", "--tml", TML, "--links", "--format", "json", "--jobs", "1", path, path],
    "report": companion("report", "-o", "pages"),
    "timeline, HTML": companion("timeline", "-o", "picture.html"),
    "timeline, SVG": companion("timeline", "-o", "picture.svg"),
    "timeline --bare, PDF": companion("timeline", "--bare", "-o", "picture.pdf"),
    "timeline --bare, TeX": companion("timeline", "--bare", "--asserted", "-o", "picture.tex"),
    "timeline --seconds": companion("timeline", "--seconds", "-o", "picture.html"),
    "matrix": companion("matrix"),
    "matrix, CSV": companion("matrix", "--format", "csv"),
    "matrix, HTML": companion("matrix", "--format", "html"),
    "seconds": companion("seconds"),
    "seconds, JSON": companion("seconds", "--format", "json"),
    "seconds, iCalendar": companion("seconds", "--format", "ics"),
    "serve": serving,
    "redundant-links": tool("redundant-links", "--tml", TML),
    "tml-edit": tool("tml-edit", "--instances", "-o", "edited"),
    "html-entities": tool("html-entities"),
}


def positions(content: bytes) -> Iterator[dict[str, int]]:
    """Some places of a document for an editor."""
    lines = content.decode("utf-8", "replace").split("\n")
    for line in sorted({0, len(lines) // 2, max(len(lines) - 3, 0)}):
        for column in sorted({0, 12, len(lines[line]) // 2, max(len(lines[line]) - 20, 0)}):
            yield {"line": line, "character": min(column, len(lines[line]))}


def session(content: bytes) -> bytes:
    """What an editor says about a document: it opens it, and then sends each request at some places."""
    about = {"uri": "file:///d.xml"}
    text = content.decode("utf-8", "replace")
    messages: list[dict[str, Any]] = [
        {"id": 0, "method": "initialize", "params": {"processId": None, "rootUri": None, "capabilities": {}}},
        {"method": "initialized", "params": {}},
        {"method": "textDocument/didOpen", "params": {"textDocument": {**about, "languageId": "xml", "version": 1, "text": text}}},
        {"method": "textDocument/documentSymbol", "params": {"textDocument": about}},
    ]
    for place in positions(content):
        given = {"textDocument": about, "position": place}
        messages += [
            {"method": f"textDocument/{name}", "params": given}
            for name in ("hover", "definition", "completion", "references", "prepareRename")
        ]
        messages.append({"method": "textDocument/rename", "params": {**given, "newName": "other"}})
        near = {"start": place, "end": {**place, "character": place["character"] + 3}}
        messages.append(
            {"method": "textDocument/codeAction", "params": {"textDocument": about, "range": near, "context": {"diagnostics": []}}}
        )
    whole = {"start": {"line": 0, "character": 0}, "end": {"line": text.count("\n") + 1, "character": 0}}
    messages.append(
        {"method": "textDocument/codeAction", "params": {"textDocument": about, "range": whole, "context": {"diagnostics": []}}}
    )
    messages += [{"method": "shutdown", "params": None}, {"method": "exit"}]
    for number, message in enumerate(messages):
        if message["method"] not in ("initialized", "textDocument/didOpen", "exit"):
            message["id"] = number
    bodies = [json.dumps({"jsonrpc": "2.0", **message}).encode() for message in messages]
    return b"".join(b"Content-Length: %d\r\n\r\n%s" % (len(body), body) for body in bodies)


def with_model(use: Callable[[tml.Document], object]) -> Callable[[bytes], object]:
    """A question about the model of a document, if there is one."""

    def question(content: bytes) -> object:
        read = tml.read(content, by())
        return use(read) if isinstance(read, tml.Document) else read

    return question


def by() -> tml.Process:
    """The program for the package."""
    return tml.Process(TML)


def names_of(read: tml.Document) -> tuple[str, str]:
    """Two intervals of a document."""
    names = list(read.intervals)
    return (names[0], names[-1]) if names else ("", "")


def related(read: tml.Document) -> object:
    """Questions about two intervals of a document."""
    first, last = names_of(read)
    if not first:
        return None
    links = [(first, "BEFORE", last), (last, "BEFORE", first)]
    return [
        tml.ask(read, first, "BEFORE", last, by()),
        tml.possible(read, first, last, by()),
        tml.with_links(read, links[:1], by()),
        tml.consistent(read, links, [0.9, 0.3], by()),
    ]


PACKAGE: dict[str, Callable[[bytes], object]] = {
    "tml.read": lambda content: tml.read(content, by()),
    "tml.check": lambda content: str(tml.check(content, by())),
    "tml.clash": lambda content: str(tml.clash(content, by())),
    "tml.clashes": lambda content: tml.clashes(content, by=by()),
    "tml.spans": lambda content: tml.spans(content, by()),
    "tml.dates": lambda content: tml.dates(content, by()),
    "tml.ask and with_links": with_model(related),
    "tml.matrix": with_model(lambda read: tml.matrix(read, by())),
    "tml.relations": with_model(lambda read: tml.relations(read, by())),
    "tml.timeline": with_model(lambda read: tml.timeline(read, by())),
    "tml.seconds": with_model(lambda read: tml.seconds(read, by())),
    "tml.reduce and score": with_model(lambda read: (tml.reduce(read, by()), tml.score(read, read, by()))),
    "as a dictionary": with_model(lambda read: read.to_dict()),
    "HTML in notebooks": with_model(lambda read: [str(getattr(one, "_repr_html_", str)()) for one in (read, tml.timeline(read, by()))]),
}
"""Questions of the package about the bytes of a document."""


@dataclass(frozen=True)
class Cost:
    """What a process took: seconds of processor time, with its children, and mebibytes of memory; and how it ended."""

    seconds: float
    mebibytes: float
    status: int


def measured(go_on: Callable[[], None]) -> Cost:
    """What a forked process takes that goes on in some way."""
    number = os.fork()
    if number == 0:
        try:
            resource.setrlimit(resource.RLIMIT_CPU, (PATIENCE, PATIENCE))
            go_on()
        except BaseException:
            traceback.print_exc()
        finally:
            os._exit(101)
    _, status, used = os.wait4(number, 0)
    return Cost(used.ru_utime + used.ru_stime, used.ru_maxrss / 1024, os.waitstatus_to_exitcode(status))


def of_command(words: list[str], folder: str, given: bytes) -> Cost:
    """What a program of `tools/` takes over a document in a folder."""
    import_ahead(*words[:2])
    with tempfile.TemporaryFile() as stdin, open(os.devnull, "wb") as out, open(os.path.join(folder, "error"), "wb") as error:
        stdin.write(given)
        stdin.seek(0)
        return measured(lambda: become(words, folder, (stdin, out, error), os.environ))


def answered(question: Callable[[bytes], object], content: bytes) -> None:
    """Answers a question in a forked process."""
    question(content)
    os._exit(0)


def cost(command: str, content: bytes) -> Cost:
    """What a command takes for a document."""
    if command in PACKAGE:
        return measured(lambda: answered(PACKAGE[command], content))
    with tempfile.TemporaryDirectory() as folder:
        path = Path(folder, "d.xml")
        path.write_bytes(content)
        found = of_command(COMMANDS[command]("d.xml"), folder, session(content) if command == "serve" else b"")
        error = Path(folder, "error").read_bytes()
    if b"Traceback" in error or found.status in (101, -signal.SIGXCPU, -signal.SIGKILL):
        sys.stderr.buffer.write(f"{command}: status {found.status}\n".encode() + error[-2000:])
    return found


def breach(command: str, shape: str, share: float) -> str | None:
    """What a command takes too much of for a document of a share of the limits; None if it takes no more than it may.

    Growth is that from a quarter of the size, and is looked at only if the command takes more than half of its time: short times say
    little. Faults are searched for, and mended, up to a number that is the same for all documents.
    """
    make = SHAPES[shape]
    room = SLOWEST * (SECONDS if shape in BROKEN | SHORT else SECONDS * share + BEGINNING)
    for _ in range(TRIES):
        found = cost(command, make(share))
        if found.mebibytes > MEBIBYTES:
            return f"{command} of {shape}: {found.mebibytes:.0f} MiB"
        growth = found.seconds / cost(command, make(share / 4)).seconds if found.seconds > room / 2 else 0.0
        if found.seconds <= room and growth <= GROWTH**2:
            return None
    return f"{command} of {shape}: {found.seconds:.2f} seconds, {growth:.1f} times those of a quarter"


def is_chosen(name: str, patterns: Iterable[str]) -> bool:
    """Whether a name is one of those that are wanted."""
    return any(fnmatchcase(name, pattern) for pattern in patterns)


def main() -> None:
    """Prints the table."""
    words = argparse.ArgumentParser(description=__doc__)
    words.add_argument("--share", type=float, default=1.0, help="the share of the limits (1)")
    words.add_argument("--all", action="store_true", help="print all rows")
    words.add_argument("--commands", nargs="+", default=["*"], help="patterns of the names of commands")
    words.add_argument("--shapes", nargs="+", default=["*"], help="patterns of the names of shapes")
    given = words.parse_args()
    print("| command | shape | bytes | seconds | MiB | growth |\n|---|---|---|---|---|---|", flush=True)
    for name, make in SHAPES.items():
        contents = [make(given.share), make(given.share / 2)] if is_chosen(name, given.shapes) else []
        for command in [*COMMANDS, *PACKAGE] if contents else ():
            if not is_chosen(command, given.commands):
                continue
            found = cost(command, contents[0])
            half = cost(command, contents[1]) if found.seconds > SHOWN_SECONDS else None
            growth = found.seconds / half.seconds if half else 0.0
            if given.all or half is not None or found.mebibytes > MEBIBYTES:
                bad = "!" * ((found.seconds > SECONDS) + (found.mebibytes > MEBIBYTES) + (growth > GROWTH))
                row = f"{command} | {name} | {len(contents[0])} | {found.seconds:.2f} | {found.mebibytes:.0f} | {growth:.1f} | {bad}"
                print(f"| {row} |", flush=True)


if __name__ == "__main__":
    main()
