"""Tries the wrong bodies of some crates, or of all: the prover has to refuse each.

A wrong body is a file crates/CRATE/wrong/NAME.edit: a line `file: PATH` below the crate, and pairs of lines `old: TEXT` and `new: TEXT`.
Each old text is in that file once. The name of the file says what is wrong.

For one crate after another, the edits are put into the folder must-fail of a copy of the crates, and `rt ci CRATE` tries them there, one
at a time, over one check of the crate. Run the gate first, so that the crates themselves are proved. What the edits of a crate came to is
kept on this machine: after Ctrl-C, only those of the crate that was being tried are tried again.

Each edit gets a line: its verdict, its crate and name, the seconds of processor time, and what the prover said first. The line below it is
the one at which the prover refused it: the clause, or a step of its proof. Time is `-` if an earlier run tried the same edit of the same
files.

Status 0 says that a proof refused each edit; 1 that one was not refused, does not apply, or was not tried, with a list at the end; 2 that
the arguments are of no known form; and 130 that the tool was stopped.

Example: nice tools/wrong-bodies named timex_value
"""

from __future__ import annotations

import argparse
import os
import re
import shutil
import signal
import subprocess
import sys
import tempfile
from collections import defaultdict
from collections.abc import Iterable, Iterator, Mapping, Sequence
from contextlib import suppress
from dataclasses import dataclass
from enum import Enum
from itertools import takewhile
from pathlib import Path
from threading import Event, Thread

from building.crates import TOP, listed
from building.gate_times import check_of, is_below, processes
from tml_corpus import VERSION

INTERVAL = 0.5
"""How many seconds pass before the processes are looked at again."""

LEFT_OUT = shutil.ignore_patterns("out", "wrong", "must-fail")


class Verdict(Enum):
    """What the try of an edit came to."""

    REFUSED = "refused"
    ACCEPTED = "NOT REFUSED"
    LIMIT = "LIMIT OF THE PROVER"
    NAME = "NAME IN A PROOF GONE"
    UNFIT = "BAD EDIT"
    UNTRIED = "NOT TRIED"


PLACE = re.compile(r"(?:note: )?(?:\./)?((?:src|specs|proofs)/\S+?):(\d+):\d+: ")

SAID = (
    (r"refused, as it must be \(only because a proof file names .*?\): (.*)", Verdict.NAME),
    (r"refused, as it must be \(only by a limit .*?\): (.*)", Verdict.LIMIT),
    (r"refused, as it must be(?:: (.*))?", Verdict.REFUSED),
    (r"NOT REFUSED: (.*)", Verdict.ACCEPTED),
    (r"BAD EDIT: (.*)", Verdict.UNFIT),
    (r"NOT TRIED: (.*)", Verdict.UNTRIED),
)
"""What `rt` says of an edit, and what it means."""


class Unfit(ValueError):
    """An edit does not apply to its crate."""


@dataclass(frozen=True)
class Edit:
    """A wrong body: its crate, its name, and the text of its file."""

    crate: str
    name: str
    text: str

    def __str__(self) -> str:
        return f"{self.crate}/{self.name}"

    def changed(self, tree: Path) -> dict[str, str]:
        """The files that it changes, by their paths below the crate, with their new texts. It is an error if it does not apply."""
        texts: dict[str, str] = {}
        path, old = "", ""
        for line in filter(None, self.text.split("\n")):
            kind, _, value = line.partition(":")
            value = value.removeprefix(" ")
            if kind == "file":
                path = value
            elif kind == "old":
                old = value
            elif kind == "new" and path and old and old != value:
                text = texts.get(path) or self.source(tree, path)
                if text.count(old) != 1:
                    raise Unfit(f"an old text is in {path} {text.count(old)} times, and not once")
                texts[path], old = text.replace(old, value), ""
            else:
                raise Unfit(f"a line out of place: {line}")
        if old or not texts:
            raise Unfit("it changes nothing")
        return texts

    def source(self, tree: Path, path: str) -> str:
        """The text of a file of the crate as it is."""
        try:
            return (tree / "crates" / self.crate / path).read_text(encoding="utf-8")
        except OSError as problem:
            raise Unfit(f"there is no file {path}") from problem


@dataclass(frozen=True)
class Result:
    """What the try of an edit came to, and what was said of it."""

    edit: Edit
    verdict: Verdict
    said: str


def edits_of(tree: Path, crate: str) -> list[Edit]:
    """The wrong bodies of a crate, by name."""
    return [Edit(crate, path.stem, path.read_text(encoding="utf-8")) for path in sorted((tree / "crates" / crate / "wrong").glob("*.edit"))]


def copied(tree: Path, room: Path, edits: Iterable[Edit]) -> Path:
    """A copy of the crates in this folder, in which these edits have to fail, and no others."""
    copy = room / "tree"
    shutil.copytree(tree / "crates", copy / "crates", ignore=LEFT_OUT)
    for name in ("crates.txt", "HANDLES"):
        shutil.copyfile(tree / name, copy / name)
    for edit in edits:
        folder = copy / "crates" / edit.crate / "must-fail"
        folder.mkdir(exist_ok=True)
        (folder / f"{edit.name}.edit").write_text(edit.text, encoding="utf-8")
    return copy


def tried(copy: Path, edits: Sequence[Edit], times: defaultdict[Edit | None, float]) -> str:
    """What `rt ci` says of a crate with these edits. The processor time of each is added to the times."""
    texts = {edit: edit.changed(copy) for edit in edits}
    environment = {**os.environ, "RT_JOBS": "1", "TMPDIR": str(copy.parent)}
    ended = Event()
    with subprocess.Popen(
        ["rt", "ci", edits[0].crate],
        cwd=copy,
        env=environment,
        stdin=subprocess.DEVNULL,
        stdout=subprocess.PIPE,
        stderr=subprocess.STDOUT,
        text=True,
    ) as gate:
        watcher = Thread(target=watch, args=(gate.pid, texts, times, ended))
        watcher.start()
        try:
            said, _ = gate.communicate()
        finally:
            # The provers end with rt.
            gate.kill()
            ended.set()
            watcher.join()
    return said


def watch(top: int, texts: Mapping[Edit, Mapping[str, str]], times: defaultdict[Edit | None, float], ended: Event) -> None:
    """Adds the processor time of the checks below a process to the times of their edits, or of no edit, until it has ended."""
    checked: dict[tuple[int, int], Edit | None] = {}
    used: dict[tuple[int, int], float] = {}
    while not ended.wait(INTERVAL):
        present = {process.number: process for process in processes()}
        for process in present.values():
            key = process.number, process.begun
            if key not in checked and is_below(process, top, present) and check_of(process):
                checked[key] = checked_edit(Path("/proc", str(process.number), "cwd"), texts)
            if key in checked:
                used[key] = process.processor
    for key, edit in checked.items():
        times[edit] += used[key]


def checked_edit(folder: Path, texts: Mapping[Edit, Mapping[str, str]]) -> Edit | None:
    """The edit that a prover checks in this folder, by its files."""
    with suppress(OSError):
        for edit, files in texts.items():
            if all((folder / path).read_text(encoding="utf-8") == text for path, text in files.items()):
                return edit
    return None


def clause(tree: Path, edit: Edit, said: str) -> str:
    """The clause by which an edit was refused, or else the line at which it was."""
    place = PLACE.match(said)
    if place is None:
        return ""
    path, number = place[1], int(place[2])
    lines = (edit.changed(tree).get(path) or edit.source(tree, path)).split("\n")
    named = re.search(r"clause-(\w+)", said)
    wanted = re.compile(rf"\s*ensures {named[1]} .*" if named else r"\s*ensures .*")
    at = number - 1
    while lines[at].lstrip().startswith("#["):
        at += 1
    first = next((above for above in range(at, -1, -1) if re.match(r"\s*(pub(\(crate\))? )?fn ", lines[above])), at)
    contract = takewhile(lambda line: line.strip() != "{", lines[first:])
    return next(filter(wanted.fullmatch, contract), lines[number - 1]).strip()


def results(said: str, edits: Iterable[Edit]) -> Iterator[Result]:
    """What each edit came to, by what `rt ci` said of the crate."""
    for edit in edits:
        about = re.search(rf"^rt: must-fail {edit}\.edit: (.*(?:\n(?!rt: |\d+ passed).*)*)", said, re.MULTILINE)
        problem = re.search(r"^.*(?:NOT PROVED|error).*", said, re.MULTILINE)
        found = about[1] if about else f"NOT TRIED: {problem[0] if problem else said[-400:]}"
        yield next(Result(edit, verdict, match[1] or "") for words, verdict in SAID if (match := re.fullmatch(words, found, re.DOTALL)))


def results_of_crate(tree: Path, edits: Iterable[Edit], times: defaultdict[Edit | None, float]) -> Iterator[Result]:
    """What each edit of a crate came to. Those that do not apply are not tried."""
    fit = []
    for edit in edits:
        try:
            edit.changed(tree)
            fit.append(edit)
        except Unfit as problem:
            yield Result(edit, Verdict.UNFIT, str(problem))
    if fit:
        with tempfile.TemporaryDirectory(prefix="wrong-bodies-", ignore_cleanup_errors=True) as room:
            yield from results(tried(copied(tree, Path(room), fit), fit, times), fit)


def main(arguments: Sequence[str]) -> int:
    """Tries the wrong bodies of some crates, and answers the status."""
    parser = argparse.ArgumentParser(prog="wrong-bodies", description=__doc__, formatter_class=argparse.RawDescriptionHelpFormatter)
    parser.add_argument("--version", action="version", version=f"%(prog)s {VERSION}")
    parser.add_argument("crates", metavar="CRATE", nargs="*", help="a crate of crates.txt (default: all)")
    options = parser.parse_args(arguments)
    known = [crate for crate, _ in listed(TOP)]
    for crate in options.crates:
        if crate not in known:
            parser.error(f"crates.txt has no crate {crate}")
    if shutil.which("rt") is None:
        parser.error("there is no rt")
    signal.signal(signal.SIGTERM, signal.default_int_handler)
    times: defaultdict[Edit | None, float] = defaultdict(float)
    found: list[Result] = []
    try:
        for crate in options.crates or known:
            for result in results_of_crate(TOP, edits_of(TOP, crate), times):
                found.append(result)
                seconds = f"{times[result.edit]:.0f} s" if result.edit in times else "-"
                print(f"{result.verdict.value}: {result.edit}: {seconds}: {result.said}", flush=True)
                if result.verdict is Verdict.REFUSED and (line := clause(TOP, result.edit, result.said)):
                    print(f"    {line}", flush=True)
    except KeyboardInterrupt:
        print("wrong-bodies: stopped", file=sys.stderr)
        return 130
    wrong = [result for result in found if result.verdict is not Verdict.REFUSED]
    print(
        f"{len(found) - len(wrong)} of {len(found)} wrong bodies were refused, in {sum(times.values()) / 60:.1f} minutes of processor time"
    )
    for result in wrong:
        print(f"{result.verdict.value}: {result.edit}")
    return 1 if wrong else 0
