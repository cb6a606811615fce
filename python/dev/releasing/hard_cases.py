"""Cases that the differential seldom draws: lengths near the limits, names that mislead, devices that fail, and names beyond ASCII."""

from __future__ import annotations

from collections.abc import Iterator
from dataclasses import replace

from differential.cases import STANDARD_INPUT, Case, Output, Real
from differential.words import DOCUMENT, EVIDENCE, KEY, SECOND, SECONDS
from tml.statuses import DOCUMENT_LIMIT, EVIDENCE_LIMIT

NAMES = {
    DOCUMENT: "Der Hafen im März 語.xml".encode(),
    KEY: "key & 'second' $HOME %PATH% 😀.xml".encode(),
    EVIDENCE: "une preuve à vérifier".encode(),
    SECOND: "évidence (2)".encode(),
    SECONDS: "-  seconds".encode(),
}
"""The names of files in the place of those of the differential."""

EMPTY, SMALL, CUT = b"<TimeML/>", b"<TimeML>Words in a row.</TimeML>", b"<"


def renamed(case: Case) -> Case:
    """A case whose files have names with spaces and letters beyond ASCII."""
    count = len(case.readings())
    names = [NAMES.get(name, name) for name in case.words[1 : 1 + count]]
    files = {NAMES.get(name, name): content for name, content in case.files.items()}
    real = replace(case.real, folders=tuple(NAMES.get(name, name) for name in case.real.folders)) if case.real is not None else None
    return replace(case, words=(*case.words[:1], *names, *case.words[1 + count :]), files=files, real=real)


def hard_cases() -> Iterator[Case]:
    """All of them."""
    yield from map(renamed, of_lengths())
    yield from of_names()
    yield from of_arguments()
    yield from of_devices()


def of_lengths() -> Iterator[Case]:
    """Files as long as they may be, and longer by a byte, by names and as standard input."""
    for more in (0, 1):
        document = b"<TimeML>%s</TimeML>" % (b" " * (DOCUMENT_LIMIT - 17 + more))
        evidence = b"\n" * (EVIDENCE_LIMIT + more)
        for command, name in ((b"check", DOCUMENT), (b"canon", STANDARD_INPUT), (b"spans", DOCUMENT)):
            yield Case("length", (command, name), {name: document})
        yield Case("length", (b"score", DOCUMENT, KEY), {DOCUMENT: EMPTY, KEY: document})
        yield Case("length", (b"verify", DOCUMENT, STANDARD_INPUT), {DOCUMENT: EMPTY, STANDARD_INPUT: evidence})
        yield Case("length", (b"renew", EVIDENCE), {EVIDENCE: evidence})


def of_names() -> Iterator[Case]:
    """Names that the library for C knows, and names of nothing."""
    yield Case("names", (), {STANDARD_INPUT: SMALL})
    yield Case("names", (b"verify", b"-", b"-"), {STANDARD_INPUT: EMPTY})
    yield Case("names", (b"check", b"second"), {b"second": SMALL})
    yield Case("names", (b"check", b"unread"), {b"first": SMALL})
    yield Case("names", (b"score", b"second", b"first"), {b"first": EMPTY, b"second": SMALL})
    yield Case("names", (b"join", b"first", b"unread"), {b"first": b"tml-evidence 1\ntimeline 0\nend\n"})
    yield Case("names", (b"ask", b"d", b"first", b"BEFORE", b"second"), {b"d": EMPTY})
    yield Case("names", (b"ask", b"d", b"x" * 20_000, b"BEFORE", b"y"), {b"d": EMPTY})
    yield Case("names", (b"verify", b"d", b"none"), {b"d": EMPTY})
    yield Case("names", (b"verify", b"d", b"none"), {b"d": CUT})
    for name in (b"", b"-", b"none", b"n" * 5000, "kein Dokument — 無".encode()):
        yield Case("names", (b"check", name))


def of_arguments() -> Iterator[Case]:
    """Arguments without a form, and ones that some shells or systems take apart."""
    for words in ((b"verify", b"d"), (b"drill", b"first"), (b"check", b"*", b"d"), (b"\xff", b"d"), (b"check", b"\xff"), (b"drill", b"64")):
        yield Case("arguments", words, {b"d": EMPTY, b"\xff": EMPTY})
    for name in (b"*", b'a "b" c', b"\\", b'\\" \\', b"\\\\\\", b" \t", b"\n", "é\u0301 😀".encode()):
        yield Case("arguments", (b"ask", b"d", name, b"BEFORE", name), {b"d": EMPTY})


def of_devices() -> Iterator[Case]:
    """Devices without an end, folders in the place of files, and streams that are full, closed, or read by nobody."""
    for device in (b"/dev/zero", b"/dev/full"):
        yield Case("devices", (b"check", device))
        yield Case("devices", (b"join", device, b"none"))
    yield Case("devices", (b"check", b"a folder"), real=Real(folders=(b"a folder",)))
    yield Case("devices", (b"score", b"d", b"k"), {b"d": EMPTY}, real=Real(folders=(b"k",)))
    for output in (Output.FULL, Output.GONE, Output.CLOSED):
        yield Case("devices", (b"drill", b"2"), real=Real(output))
        yield Case("devices", (b"check", b"d"), {b"d": CUT}, real=Real(output))
    for words in ((b"check", b"-"), (b"verify", b"d", b"-"), (b"check", b"d")):
        yield Case("devices", words, {b"d": EMPTY}, real=Real(input_closed=True))
