"""Refuses memory to `tml`: each allocation of each run in turn, alone and with all that come after it.

`python3 python/tests/refused_memory.py [STRIDE]` refuses all of them, or each of so many, and prints
`N allocations of M runs refused, each alone and with all after it: D deviations`. A run deviates where it neither answers exactly
as without a refusal nor ends with status 6 and writes nothing.

The first allocations of a run are those of the runtime, which reads the words; what it does without memory is not said by any
contract of `tml`. Where `run` begins is found by runs with as many words that have no form: what these allocate is taken to come
before it. Refusals there may end the program by a signal, but nothing may be written in another way; they are counted apart.

It needs `cc`, LD_PRELOAD and a program that takes its memory from the C library.
"""

from __future__ import annotations

import itertools
import os
import shutil
import struct
import subprocess
import sys
import tempfile
from collections.abc import Iterator, Sequence
from dataclasses import dataclass, field
from pathlib import Path

from differential.cases import Case
from differential.programs import STANDARD_ERROR, Programs, program_path
from reference import Outcome
from tml.statuses import INTERVAL_LIMIT, LINK_LIMIT, TmlStatus

LIBRARY = Path(__file__).resolve().parent / "refused_memory.c"
SAMPLES = Path(__file__).resolve().parent.parent.parent / "samples"
ALL = (1 << 64) - 1
EVENTS = '<EVENT eid="e" class="STATE">x</EVENT>' + "".join(f'<MAKEINSTANCE eiid="{name}" eventID="e"/>' for name in "abc")
DATES = (
    '<TIMEX3 tid="t" type="DATE" value="1998-01-08">x</TIMEX3><TIMEX3 tid="u" type="DATE" value="1998-01-09" mod="MID"/>'
    '<TIMEX3 tid="v" type="SET"/>'
)
AB, BC, CA, AC = (
    f'<TLINK eventInstanceID="{x}" relatedToEventInstance="{y}" relType="BEFORE"/>' for x, y in zip("abca", "bcac", strict=True)
)
UNITS = "<?xml version='1.0'?><!DOCTYPE TimeML><!-- a --><TimeML b='\"' a=\"&amp;\">x<P></P ><!-- b --></TimeML>\n"
TO_ITSELF = b'<TLINK timeID="t" relatedToTime="t" relType="DURING"/>'
FAULTY = {
    "NotUtf8": b"<TimeML>\xff</TimeML>",
    "BadReference": b"<TimeML>&</TimeML>",
    "BadMarkup": b"<TimeML><</TimeML>",
    "UnknownTag": b"<TimeML><a/></TimeML>",
    "Unbalanced": b"<TimeML></P></TimeML>",
    "Unclosed": b"<TimeML><P></P>",
    "Misplaced": b"<TimeML/>x",
    "TooDeep": b"<TimeML>" + b"<P>" * 32,
    "RepeatedAttribute": b'<TimeML a="" a=""/>',
    "MissingAttribute": b"<TimeML><EVENT/></TimeML>",
    "BadValue": b'<TimeML><SIGNAL sid=":"/></TimeML>',
    "Conflict": b'<TimeML><TLINK timeID="t" eventInstanceID="a" relatedToTime="t" relType="AFTER"/></TimeML>',
    "BadDate": b'<TimeML><TIMEX3 tid="t" type="DATE" value="1999-02-29"/></TimeML>',
    "DuplicateId": b'<TimeML><SIGNAL sid="s"/><SIGNAL sid="s"/></TimeML>',
    "UnknownReference": b'<TimeML><EVENT eid="e" class="STATE"/><MAKEINSTANCE eiid="i" eventID="f"/></TimeML>',
    "TooManyIntervals": b"<TimeML>%s</TimeML>" % b"".join(b'<TIMEX3 tid="t%d" type="SET"/>' % one for one in range(INTERVAL_LIMIT + 1)),
    "TooManyLinks": b'<TimeML><TIMEX3 tid="t" type="SET"/>%s</TimeML>' % (TO_ITSELF * (LINK_LIMIT + 1)),
}
"""A small document of each fault."""


def document(*parts: str) -> bytes:
    """A document of these tags."""
    return f"<TimeML>{''.join(parts)}</TimeML>\n".encode()


DOCUMENTS = {
    "empty": document(),
    "units": UNITS.encode(),
    "fits": document(EVENTS, DATES, AB, BC, '<TLINK eventInstanceID="c" relatedToTime="t" relType="IS_INCLUDED"/>'),
    "clash": document(EVENTS, DATES, AB, BC, CA),
    "redundant": document(EVENTS, AC, AB, BC, AB.replace("BEFORE", "SIMULTANEOUS").replace('"b"', '"a"')),
    "calendar": document(EVENTS, DATES, '<TLINK timeID="u" relatedToTime="t" relType="BEFORE"/>'),
    "links": document(EVENTS, '<SIGNAL sid="s"/><SLINK subordinatedEventInstance="a" relType="MODAL" signalID="s"/>'),
}
THREE = '<EVENT eid="e" class="OCCURRENCE"/>' + "".join(f'<MAKEINSTANCE eiid="{name}" eventID="e"/>' for name in "abc")
BY_THE_CALENDAR = (
    '<TIMEX3 tid="t1" type="DATE" value="1998-01-08"/><TIMEX3 tid="t2" type="DATE" value="1998-01-09"/><EVENT eid="e" class="STATE"/>'
    '<MAKEINSTANCE eiid="i1" eventID="e"/><MAKEINSTANCE eiid="i2" eventID="e"/>'
    '<TLINK eventInstanceID="i1" relatedToTime="t2" relType="IS_INCLUDED"/>'
    '<TLINK eventInstanceID="i1" relatedToEventInstance="i2" relType="BEFORE"/>'
    '<TLINK eventInstanceID="i2" relatedToTime="t1" relType="IS_INCLUDED"/>'
)
WORKED = (
    ("check d", (SAMPLES / "rates.xml").read_bytes()),
    ("solve d", (SAMPLES / "rates.xml").read_bytes()),
    ("ask d a BEFORE c", document(THREE, AB, BC)),
    ("ask d a IS_INCLUDED b", document(THREE, AB.replace("BEFORE", "DURING"))),
    ("solve d", document(BY_THE_CALENDAR)),
    ("canon d", b"<?xml version=\"1.0\"?><TimeML ><SIGNAL x='a\"b'   sid='s1'></SIGNAL></TimeML>"),
)
"""Worked examples: a sample, a proof, a counterexample, a clash by the calendar, and a canonical text."""
QUESTIONS = {
    "fits": ("a BEFORE c", "a SIMULTANEOUS b", "t BEFORE u", "n BEFORE a", "a X b", "a BEFORE n", "b DURING t"),
    "clash": ("a BEFORE c", "n BEFORE a"),
}
PAIRS = {"fits": ("a b", "a c", "b b", "t u", "n a", "a n"), "clash": ("a c", "a n")}
"""Intervals of which `possible` is asked, and names of none."""
EVIDENCE = {
    "timeline": b"timeline 6\nat 0 1\nat 2 3\nat 4 5\nat 3 6\nat 6 7\nat 0 1\n",
    "timeline of another size": b"timeline 1\nat 0 1\n",
    "order": b"timeline 6\nat 1 1\nat 2 3\nat 4 5\nat 3 6\nat 6 7\nat 0 1\n",
    "link": b"timeline 6\nat 0 2\nat 2 3\nat 4 5\nat 3 6\nat 6 7\nat 0 1\n",
    "calendar": b"timeline 6\nat 0 1\nat 2 3\nat 4 5\nat 3 8\nat 6 7\nat 0 1\n",
    "entails": b"entails 0 BEFORE 2\nwalk 3\nvia 0 0\nspan 1\nvia 1 0\n",
    "entails, no walk": b"entails 0 BEFORE 2\nwalk 2\nvia 0 0\nvia 1 0\n",
    "entails, another end": b"entails 0 BEFORE 2\nwalk 1\nvia 0 0\n",
    "entails, no interval": b"entails 0 BEFORE 9\nwalk 0\n",
    "counter": b"counter 0 AFTER 1\ntimeline 6\nat 0 1\nat 2 3\nat 4 5\nat 3 6\nat 6 7\nat 0 1\n",
    "counter, and it holds": b"counter 0 BEFORE 1\ntimeline 6\nat 0 1\nat 2 3\nat 4 5\nat 3 6\nat 6 7\nat 0 1\n",
    "bad number": b"timeline 6\nat 0 01\n",
    "not ended": b"timeline 6\nat 0 1\n",
}
KEYS = {
    "redundant": DOCUMENTS["redundant"],
    "fits": DOCUMENTS["fits"],
    "clash": DOCUMENTS["clash"],
    "a fault of bytes": FAULTY["BadMarkup"],
    "a fault of names": FAULTY["UnknownReference"],
}
"""The second documents of `score`."""
LENGTHS = (
    '<TIMEX3 tid="d" type="DATE" value="1998-01-08"/><TIMEX3 tid="p" type="DURATION" value="P1D"/>'
    '<TLINK timeID="p" relatedToTime="d" relType="%s"/>'
)
TIMED = {"placing": document(LENGTHS % "DURING"), "cycle": document(LENGTHS % "IS_INCLUDED")}
"""Documents of a duration, which has a placing and none."""
SECONDS = {
    "placing": b"placing 2\nat 884217600 884304000\nat 884217600 884304000\n",
    "length": b"placing 2\nat 884217600 884304000\nat 884217600 884303999\n",
    "size": b"placing 1\nat -1 0\n",
    "cycle": b"cycle 5\nupper 1\nvia 0 1\nleast 1\nvia 0 0\nlower 0\n",
    "step": b"cycle 2\nspan 1\nmost 0\n",
    "bad number": b"placing 1\nat -0 1\n",
}
"""Placings and cycles, for `confirm`."""
OTHERS = b"at 0 1\nat 1 2\nat 0 1\n"
CLASH = b"clash 3\ncite 0\ncite 1\ncite 2\nwalk 6\nvia 0 0\nspan 1\nvia 1 0\nspan 2\nvia 2 0\nspan 0\n"
SPARES = (b"at 4 5\nat 0 1\nat 2 3\n", b"at 2 3\nat 4 5\nat 0 1\n", b"at 0 1\nat 2 3\nat 4 5\n")
CLASHES = {
    "clash": CLASH + b"".join(b"timeline 6\n" + spare + OTHERS for spare in SPARES),
    "clash, with a wrong spare": CLASH + (b"timeline 6\n" + SPARES[0] + OTHERS) * 3,
    "clash, not cited": CLASH.replace(b"clash 3\n", b"clash 2\n").replace(b"cite 1\n", b"") + (b"timeline 6\n" + SPARES[0] + OTHERS) * 2,
}


def verifying(name: str, of: str, text: bytes) -> Case:
    """A question to `verify`."""
    return Case(f"verify, {name}", (b"verify", b"d", b"-"), {b"d": DOCUMENTS[of], b"-": b"tml-evidence 1\n" + text + b"end\n"})


def bundle(*bodies: bytes) -> bytes:
    """The text of several claims."""
    return b"tml-evidence 2\nclaims %d\n%send\n" % (len(bodies), b"".join(bodies))


TWO, ENTAILS = bundle(EVIDENCE["timeline"], EVIDENCE["counter"]), b"tml-evidence 1\n" + EVIDENCE["entails"] + b"end\n"
ONES = (*EVIDENCE.values(), *CLASHES.values())
OF_EVIDENCE = (
    Case("verify, two claims", (b"verify", b"d", b"e"), {b"d": DOCUMENTS["fits"], b"e": TWO}),
    Case(
        "verify, a second claim that is refused",
        (b"verify", b"d", b"e"),
        {b"d": DOCUMENTS["fits"], b"e": bundle(EVIDENCE["entails"], EVIDENCE["link"], EVIDENCE["order"])},
    ),
    *(Case(f"renew, {text[:8]!r}", (b"renew", b"e"), {b"e": b"tml-evidence 1\n" + text + b"end\n"}) for text in ONES),
    Case("renew, two claims", (b"renew", b"-"), {b"-": TWO}),
    Case("renew, nothing there", (b"renew", b"none")),
    Case("join", (b"join", b"e", b"-"), {b"e": TWO, b"-": ENTAILS}),
    Case("join, a first one that is bad", (b"join", b"e", b"f"), {b"e": TWO + b"end\n", b"f": ENTAILS}),
    Case("join, a second one that is bad", (b"join", b"e", b"f"), {b"e": ENTAILS, b"f": TWO.replace(b"claims 2", b"claims 3")}),
    Case("join, nothing second", (b"join", b"e", b"none"), {b"e": ENTAILS}),
)
"""Texts of several claims, and what `renew` and `join` make of texts."""


def runs() -> Iterator[Case]:
    """Runs that take every path: each command over each document, each fault, each kind of evidence, and words of no form."""
    for name, content in DOCUMENTS.items():
        for command in (b"spans", b"check", b"dates", b"solve", b"relations", b"canon", b"matrix", b"reduce", b"seconds"):
            yield Case(f"{command.decode()}, {name}", (command, b"d"), {b"d": content})
    for name, content in FAULTY.items():
        yield Case(f"check, {name}", (b"check", b"-"), {b"-": content})
    for command in (b"spans", b"canon", b"verify d", b"ask d a"):
        words = {b"verify d": (b"verify", b"d", b"none"), b"ask d a": (b"ask", b"d", b"a", b"BEFORE", b"b")}.get(command, (command, b"d"))
        yield Case(f"{command.decode()}, faulty", words, {b"d": FAULTY["BadMarkup"]})
    for name, questions in QUESTIONS.items():
        for question in questions:
            yield Case(f"ask {question}, {name}", (b"ask", b"d", *question.encode().split(b" ")), {b"d": DOCUMENTS[name]})
    for name, pairs in PAIRS.items():
        for pair in pairs:
            yield Case(f"possible {pair}, {name}", (b"possible", b"d", *pair.encode().split(b" ")), {b"d": DOCUMENTS[name]})
    for (name, content), of in itertools.product(KEYS.items(), ("fits", "redundant", "clash")):
        yield Case(f"score, {of}, with the key {name}", (b"score", b"d", b"k"), {b"d": DOCUMENTS[of], b"k": content})
    for (of, content), (name, text) in itertools.product(TIMED.items(), SECONDS.items()):
        yield Case(f"confirm, {name}, {of}", (b"confirm", b"d", b"s"), {b"d": content, b"s": b"tml-seconds 1\n" + text + b"end\n"})
    for name, content in TIMED.items():
        yield Case(f"seconds, {name}", (b"seconds", b"d"), {b"d": content})
    for name, text in EVIDENCE.items():
        yield verifying(name, "fits", text)
    for name, text in CLASHES.items():
        yield verifying(name, "clash", text)
    yield from OF_EVIDENCE
    for line, content in WORKED:
        yield Case(f"worked, {line}", tuple(line.encode().split(b" ")), {b"d": content})
    for number in (b"1", b"2", b"12"):
        yield Case(f"drill {number.decode()}", (b"drill", number))
    yield Case("no words", (), {b"-": DOCUMENTS["units"]})
    yield Case("no form", (b"check", b"d", b"e"))
    yield Case("read fault", (b"check", b"none"))
    for command in (b"verify", b"score", b"confirm"):
        yield Case(f"{command.decode()}, nothing second", (command, b"d", b"none"), {b"d": DOCUMENTS["fits"]})


@dataclass
class Found:
    """What was refused, and the deviations as sentences."""

    allocations: int = 0
    runs: int = 0
    start: int = 0
    ended_at_start: int = 0
    refused: int = 0
    no_memory: int = 0
    deviations: list[str] = field(default_factory=list)

    def line(self) -> str:
        """All of it in a line."""
        refused = f"{self.allocations} allocations of {self.runs} runs refused, each alone and with all after it"
        answered = f"{self.no_memory} of {self.refused} times the status was 6, else the answer as ever"
        start = f"of {self.start} further allocations before `run` {self.ended_at_start} ended the program by a signal"
        return f"{refused}: {len(self.deviations)} deviations ({answered}; {start})"


@dataclass(frozen=True)
class Refusal:
    """Which allocation is refused, how many from it on, and whether it comes before `run`."""

    first: int
    number: int
    at_start: bool


class Refusing:
    """Runs the program with the library that refuses memory."""

    def __init__(self, folder: Path, program: Path) -> None:
        library, self.tally = folder / "refused_memory.so", folder / "tally"
        command = ["cc", "-shared", "-fPIC", "-O1", "-o", str(library), str(LIBRARY)]
        built = subprocess.run(command, capture_output=True, check=False)
        self.is_built = built.returncode == 0
        self.programs = Programs(program, {**os.environ, "LD_PRELOAD": str(library), "REFUSED_MEMORY": str(self.tally)})

    def outcome(self, case: Case, first: int = 0, number: int = 0) -> Outcome:
        """The outcome of a case where so many allocations from the first one on are refused."""
        self.tally.write_bytes(struct.pack("=QQQ", 0, first, number))
        return self.programs.outcome(case)

    def counted(self, case: Case) -> int:
        """How many allocations a run makes that is refused none."""
        self.outcome(case)
        return int(struct.unpack("=QQQ", self.tally.read_bytes())[0])

    def start_of(self, case: Case) -> int:
        """How many allocations come before `run`: those of a run with as many words, as long ones, that have no form."""
        return self.counted(Case("start", tuple(b"=" * max(len(word), 1) for word in case.words) or (b"=",)))

    def refuse_all(self, case: Case, found: Found, stride: int) -> None:
        """Refuses the allocations of a case, each of so many."""
        wanted, start = self.outcome(case), self.start_of(case)
        count = self.counted(case)
        found.runs += 1
        chosen = range(1 + found.runs % stride, count + 1, stride)
        for first in chosen:
            if first <= start:
                found.start += 1
            else:
                found.allocations += 1
            for number in (1, ALL):
                self.judge(case, Refusal(first, number, first <= start), wanted, found)

    def judge(self, case: Case, refusal: Refusal, wanted: Outcome, found: Found) -> None:
        """Refuses one allocation, or all from it on, and looks at what comes of it."""
        outcome, at_start = self.outcome(case, refusal.first, refusal.number), refusal.at_start
        if at_start and outcome.status < 0 and (not outcome.text or outcome.text.startswith(STANDARD_ERROR)):
            found.ended_at_start += 1
            return
        found.refused += not at_start
        if outcome == Outcome(TmlStatus.NO_MEMORY, b""):
            found.no_memory += not at_start
        elif outcome != wanted:
            alone = "alone" if refusal.number == 1 else "and all after it"
            found.deviations.append(f"{case.subject}: allocation {refusal.first} refused, {alone}: {outcome}, and not {wanted}")


def reason_to_skip(folder: Path, program: Path) -> str | None:
    """Why nothing can be refused here, or None where it can."""
    if not os.access(program, os.X_OK):
        return f"no program {program}: build it as README.md says, or name one by TML=PROGRAM"
    if not sys.platform.startswith("linux"):
        return "LD_PRELOAD is there on Linux alone"
    if shutil.which("cc") is None:
        return "no cc"
    refusing = Refusing(folder, program)
    if not refusing.is_built:
        return "cc cannot build python/tests/refused_memory.c"
    return None if refusing.counted(Case("words", (b"=",))) else "the program takes no memory that a library of LD_PRELOAD can refuse"


def refuse_memory(program: Path, stride: int, cases: Sequence[Case]) -> Found:
    """Refuses the allocations of these runs."""
    found = Found()
    with tempfile.TemporaryDirectory(prefix="refused-memory-") as folder:
        refusing = Refusing(Path(folder), program)
        with refusing.programs:
            for case in cases:
                refusing.refuse_all(case, found, stride)
    return found


def main() -> int:
    """Refuses all, or each of so many, and prints what was found."""
    program = program_path()
    with tempfile.TemporaryDirectory(prefix="refused-memory-") as folder:
        reason = reason_to_skip(Path(folder), program)
    if reason is not None:
        print(f"refused memory: skipped: {reason}")
        return 0
    found = refuse_memory(program, int(sys.argv[1]) if len(sys.argv) > 1 else 1, list(runs()))
    print("\n".join([*found.deviations[:20], found.line()]))
    return 1 if found.deviations else 0


if __name__ == "__main__":
    sys.exit(main())
