#!/usr/bin/env python3
"""Measures `tml-corpus` over 10,000 documents of about 4 KiB beside `tml check` by xargs and `xmllint --noout`, all in one run.

Two folders are made. In the first all documents are accepted and some timeline fits each; in the second one of fifty has a fault
and one of fifty a clash. Over them `tml-corpus check` and `clashes` are run by the library and by a process for each question, with
one file at once and with four, and so are `tml check` by xargs, and xmllint with 64 files a process. With `--old TOOLS` another
version of `tools` is run beside them. The runs take turns. Of each the least wall time is printed, and of that run the processor
time, that of the user and of the system with all processes, and how many processors other work had meanwhile. The first line has
the load before the runs.

The library is to be no slower than xmllint, at one and at four; with four, `check` is to take a second at most, and `clashes` one
and a half. Where xmllint (Debian's libxml2-utils) is missing, its rows are left out. Build the program and the library first.

usage: bench/corpus.py [--tml TML] [--library LIBRARY] [--old TOOLS] [--files N] [--runs N] [--no-slow]
"""

import argparse
import os
import shutil
import subprocess
import sys
import tempfile
import time
from dataclasses import dataclass
from pathlib import Path
from random import Random

TOP = Path(__file__).resolve().parent.parent
NULL = subprocess.DEVNULL
SIZE = 4096
ONE_OF = 50
TOGETHER = 64
"""So many files are given to a process of xmllint."""

NOUNS = ("bank", "port", "union", "minister", "court", "council", "company", "board", "owner", "agency", "ferry", "mine")
VERBS = ("fell", "rose", "closed", "opened", "met", "voted", "signed", "left", "struck", "paid", "sold", "ruled")
WORDS = "in the morning as its members had asked for when the talks with the other side of the river came to nothing".split()
CLASSES = ("OCCURRENCE", "STATE", "REPORTING", "I_ACTION", "ASPECTUAL")
FAULTS = (
    "<EVENT/>", "<FILEID>A1</FILEID>", '<TLINK eventInstanceID="gone" relatedToTime="gone" relType="BEFORE"/>', "AT&T", "<s>",
    '<SIGNAL sid="1998-01-08"/>' * 2,
)  # fmt: skip
CLASH = '<TIMEX3 tid="once" type="SET"/><TLINK timeID="once" relatedToTime="once" relType="BEFORE"/>'


class Item:
    """A news item as it is made, from its number alone: its sentences, and the tags that stand after them or among them."""

    def __init__(self, number: int) -> None:
        self.draw = Random(number)
        self.name = self.draw.choice(("{0}{1}", "{0}-{1:03}", "{0}.{1:x}", "{0}_s{1}", "{0}{2:05x}")).format
        self.apart = self.draw.random() < 0.7
        self.size = self.draw.randint(SIZE // 2, SIZE * 3 // 2)
        self.text: list[str] = []
        self.tags: list[str] = []
        self.times: list[str] = []
        self.events: list[str] = []

    def named(self, kind: str, number: int) -> str:
        """An identifier; in some documents their order is not that of their bytes."""
        return self.name(kind, number, number * 40503 % (1 << 20))

    def add(self, tag: str) -> None:
        """Adds a tag after the text, or right here."""
        (self.tags if self.apart else self.text).append(tag)

    def tell_day(self, number: int) -> None:
        """A day of its own month, so that days do not touch; it is after the day before it."""
        name = self.named("t", number)
        value = f"{1990 + number // 12}-{number % 12 + 1:02}-{self.draw.randint(2, 27):02}"
        word = self.draw.choice(("day", "Monday", "morning"))
        self.text.append(f'On <TIMEX3 tid="{name}" type="DATE" value="{value}">that {word}</TIMEX3>')
        if self.times and self.draw.random() < 0.3:
            self.add(f'<TLINK lid="{self.named("lt", number)}" timeID="{self.times[-1]}" relatedToTime="{name}" relType="BEFORE"/>')
        self.times.append(name)

    def tell_event(self, number: int) -> None:
        """An event of the day that was told last, mostly after the event before it."""
        event, instance, draw = self.named("e", number), self.named("ei", number), self.draw
        words = " ".join(draw.choices(WORDS, k=draw.randint(2, 12)))
        kind = draw.choice(CLASSES)
        self.text.append(f'the {draw.choice(NOUNS)} <EVENT eid="{event}" class="{kind}">{draw.choice(VERBS)}</EVENT> {words},')
        self.add(f'<MAKEINSTANCE eiid="{instance}" eventID="{event}" tense="PAST" aspect="NONE" pos="VERB" polarity="POS"/>')
        first, other = self.named("l", number), self.named("m", number)
        self.add(f'<TLINK lid="{first}" eventInstanceID="{instance}" relatedToTime="{self.times[-1]}" relType="IS_INCLUDED"/>')
        if self.events and draw.random() < 0.8:
            left, right, relation = draw.choice(((self.events[-1], instance, "BEFORE"), (instance, self.events[-1], "AFTER")))
            self.add(f'<TLINK lid="{other}" eventInstanceID="{left}" relatedToEventInstance="{right}" relType="{relation}"/>')
        self.events.append(instance)

    def document(self, slip: str = "") -> str:
        """The whole document, with a slip at its end."""
        number = 0
        while sum(map(len, self.text)) + sum(map(len, self.tags)) < self.size - 200:
            if number % 4 == 0:
                self.tell_day(number // 4)
            self.tell_event(number)
            number += 1
        after = self.draw.sample(self.tags, len(self.tags)) if self.draw.random() < 0.3 else self.tags
        return "\n".join(['<?xml version="1.0"?>', "<TimeML>", *self.text, *after, f"{slip}</TimeML>"]) + "\n"


def slip_of(number: int) -> str:
    """What is wrong with a document of the second folder."""
    if number % ONE_OF == 7:
        return FAULTS[number // ONE_OF % len(FAULTS)]
    return CLASH if number % ONE_OF == 33 else ""


def write(folder: Path, count: int, with_slips: bool) -> int:
    """Writes the documents to some folders below one, and answers how many bytes they have."""
    size = 0
    for number in range(count):
        place = folder / f"{number % 10}"
        place.mkdir(parents=True, exist_ok=True)
        content = Item(number).document(slip_of(number) if with_slips else "").encode()
        (place / f"{number:05}.xml").write_bytes(content)
        size += len(content)
    return size


@dataclass
class Row:
    """A command that is measured: its name, its folder, how many files it looks at at once, its words, and its best run."""

    name: str
    folder: str
    at_once: int
    words: list[str]
    is_slow: bool
    wall: float = float("inf")
    own: float = 0.0
    others: float = 0.0

    def run(self, place: Path) -> bytes:
        """Runs it once, and answers what it printed."""
        environment = {name: value for name, value in os.environ.items() if name not in ("PYTHONDONTWRITEBYTECODE", "TML_LIBRARY")}
        environment["PYTHONPYCACHEPREFIX"] = str(place / "bytecode")
        with tempfile.TemporaryFile() as output:
            before, begun = busy(), time.perf_counter()
            child = subprocess.Popen(self.words, cwd=place, env=environment, stdin=NULL, stdout=output, stderr=NULL)
            _, status, usage = os.wait4(child.pid, 0)
            wall = time.perf_counter() - begun
            child.returncode = os.waitstatus_to_exitcode(status)
            own = usage.ru_utime + usage.ru_stime
            if wall < self.wall:
                self.wall, self.own, self.others = wall, own, max(busy() - before - own, 0.0) / wall
            output.seek(0)
            return output.read()

    def text(self) -> str:
        """The row in columns."""
        return f"{self.folder:6} {self.name:36} {self.at_once:7} {self.wall:7.2f} {self.own:7.2f} {self.others:6.1f}"


def busy() -> float:
    """How many seconds all processors have worked, where the system says so."""
    try:
        words = Path("/proc/stat").read_text(encoding="ascii").split("\n", 1)[0].split()[1:]
    except OSError:
        return 0.0
    user, nice, system, _, _, *others = map(int, words[:8])
    return (user + nice + system + sum(others)) / os.sysconf("SC_CLK_TCK")


def companions(chosen: argparse.Namespace) -> dict[str, tuple[list[str], bool]]:
    """The ways in which the companion is started, and whether each is slow."""
    companion = [sys.executable, str(TOP / "tools" / "tml-corpus")]
    found = {
        "by the library": ([*companion, "COMMAND", "--tml", chosen.tml, "--library", chosen.library], False),
        "by processes": ([*companion, "COMMAND", "--tml", chosen.tml, "--no-library"], True),
    }
    if chosen.old:
        old = [sys.executable, str(Path(chosen.old).resolve() / "tml-corpus")]
        found["of the old tools"] = ([*old, "COMMAND", "--tml", chosen.tml], True)
    return found


def rows(chosen: argparse.Namespace) -> list[Row]:
    """All that is measured."""
    found: list[Row] = []
    for folder in ("plain", "slips"):
        listed = f"find {folder} -name '*.xml' -print0 | xargs -0"
        for at_once in (1, 4):
            for command in ("check", "clashes"):
                for name, (words, is_slow) in companions(chosen).items():
                    line = [command if word == "COMMAND" else word for word in words]
                    found.append(Row(f"tml-corpus {command} {name}", folder, at_once, [*line, "--jobs", str(at_once), folder], is_slow))
            one = ["sh", "-c", f'{listed} -n 1 -P {at_once} "$0" check', chosen.tml]
            found.append(Row("xargs -n 1 tml check", folder, at_once, one, True))
            if shutil.which("xmllint"):
                many = ["sh", "-c", f"{listed} -n {TOGETHER} -P {at_once} xmllint --noout"]
                found.append(Row(f"xargs -n {TOGETHER} xmllint --noout", folder, at_once, many, False))
    return [row for row in found if not (row.is_slow and chosen.no_slow)]


def measure(place: Path, measured: list[Row], runs: int) -> None:
    """Runs all rows in turns; slow ones once. Each way of the companion has to print the same of a folder."""
    printed: dict[tuple[str, str], bytes] = {}
    for number in range(runs + 1):
        for row in measured:
            if row.is_slow and number != 1:
                continue
            text = row.run(place)
            kind = row.folder, " ".join(row.name.split()[:2])
            if row.name.startswith("tml-corpus") and printed.setdefault(kind, text) != text:
                sys.exit(f"{row.name} over {row.folder} does not print what another way does")
            if number == 0:
                # The first run reads the files from the disk and compiles the tools.
                row.wall = float("inf")


def arguments() -> argparse.Namespace:
    """The words of the command line."""
    parser = argparse.ArgumentParser(description="Measures tml-corpus over many small documents.")
    parser.add_argument("--tml", default=str(TOP / "crates/tml/out/tml"), help="the program (that of this repository)")
    parser.add_argument("--library", default=str(TOP / "crates/tml_c/out/libtml.so"), help="the library (that of this repository)")
    parser.add_argument("--old", metavar="TOOLS", help="the folder `tools` of another version, which is run beside")
    parser.add_argument("--files", type=int, default=10_000, help="how many documents a folder has (10000)")
    parser.add_argument("--runs", type=int, default=5, help="how often what is fast is run (5)")
    parser.add_argument("--no-slow", action="store_true", help="leave out what starts a process for each file")
    chosen = parser.parse_args()
    for name in (chosen.tml, chosen.library):
        if not os.path.isfile(name):
            parser.error(f"no file {name}")
    chosen.tml, chosen.library = os.path.abspath(chosen.tml), os.path.abspath(chosen.library)
    return chosen


def main() -> None:
    """Measures and prints the table."""
    chosen = arguments()
    print(f"load {os.getloadavg()[0]:.1f} on {os.cpu_count()} processors before the runs", flush=True)
    with tempfile.TemporaryDirectory() as folder:
        place = Path(folder)
        sizes = [write(place / name, chosen.files, name == "slips") for name in ("plain", "slips")]
        print(f"{chosen.files} documents a folder, of {sizes[0] // chosen.files} bytes each", flush=True)
        measured = rows(chosen)
        measure(place, measured, chosen.runs)
    print(f"{'folder':6} {'command':36} {'at once':>7} {'wall s':>7} {'own s':>7} {'others':>6}")
    for row in measured:
        print(row.text())


if __name__ == "__main__":
    main()
