"""Measures the merge gate: the processor time of each check that `rt ci` makes, and of the functions of a crate.

    tools/gate-times watch LOG PROCESS     writes a line to LOG for each check that a process below PROCESS makes, until SIGTERM
    tools/gate-times table LOG [N]         prints the processor time of the N slowest crates: proof, tests, edits that must fail
    tools/gate-times slowest N CRATE..     prints the N slowest functions and files of lemmas of these crates

The log has a JSON object a line. `rt ci` starts the prover once for each proof, each crate's tests and each edit. `watch` reads once
a second in /proc which of them run, and what each has used. `slowest` checks each crate once more from nothing, over the
libraries that `rt ci` left in crates/*/out, with work kept in a folder: the prover writes a file there for each module that it has
checked, so its time is the processor time since the file before. The modules X.Lts, X.Proof and X.Tie are the proof of a function X.
"""

from __future__ import annotations

import importlib.machinery
import importlib.util
import json
import os
import re
import shutil
import signal
import subprocess
import sys
import tempfile
import threading
import time
from bisect import bisect_right
from collections import Counter, defaultdict
from collections.abc import Iterator, Mapping, Sequence
from contextlib import suppress
from dataclasses import asdict, dataclass
from heapq import nlargest
from operator import itemgetter
from pathlib import Path
from types import ModuleType
from typing import NamedTuple

TOP = Path(__file__).resolve().parents[3]
PART_OF_PROOF = re.compile(r"\.(Lts|Proof|Tie|Reads|Code|Mir|Statement|Met|Key|TheLink|Symbol|Borrows)(\..*)?$")
PROVER = "rattle"
INTERVAL = 1.0
"""How many seconds `watch` waits before it looks again."""


@dataclass
class Check:
    """One run of the prover: its crate, whether it is for the proof, the tests, an edit or a program, and what it has used."""

    crate: str
    kind: str
    begun: float
    ended: float
    processor: float


def kit() -> ModuleType:
    """The kit's command `rt`, as a module."""
    found = shutil.which("rt")
    if found is None:
        sys.exit("gate-times: there is no rt")
    loader = importlib.machinery.SourceFileLoader("rt", os.path.realpath(found))
    spec = importlib.util.spec_from_loader("rt", loader)
    assert spec is not None
    made = importlib.util.module_from_spec(spec)
    loader.exec_module(made)
    return made


def kind_of(words: Sequence[str], folder: str) -> str | None:
    """What a run of the prover with these words is for; None if it checks nothing."""
    if words[:1] not in (["check"], ["build"]) or "--help" in words:
        return None
    if "--crate-checked" in words:
        return "program"
    if os.path.basename(folder).startswith("rt-edit-"):
        return "edit"
    return "tests" if "--test" in words else "proof"


class Process(NamedTuple):
    """A process by its number and the time at which it began, since numbers come again, with its parent and the seconds it has used."""

    number: int
    begun: int
    parent: int
    processor: float


def processes() -> Iterator[Process]:
    """The processes of this machine."""
    for name in filter(str.isdigit, os.listdir("/proc")):
        with suppress(OSError, IndexError):
            fields = Path("/proc", name, "stat").read_text(encoding="utf-8").rpartition(")")[2].split()
            yield Process(int(name), int(fields[19]), int(fields[1]), sum(map(int, fields[11:13])) / os.sysconf("SC_CLK_TCK"))


def check_of(process: Process) -> Check | None:
    """The check that a process makes; None if it is another program."""
    with suppress(OSError):
        words = Path(f"/proc/{process.number}/cmdline").read_text(encoding="utf-8").split("\0")
        if os.path.basename(words[0]) == PROVER and "--crate-name" in words:
            kind = kind_of(words[1:], os.readlink(f"/proc/{process.number}/cwd"))
            return Check(words[words.index("--crate-name") + 1], kind, time.time(), time.time(), 0.0) if kind else None
    return None


def watch(log: str, top: int) -> int:
    """Notes what each check takes that is made below a process, until SIGTERM."""
    ending = threading.Event()
    signal.signal(signal.SIGTERM, lambda *_: ending.set())
    known: dict[tuple[int, int], Check] = {}
    while not ending.wait(INTERVAL):
        present = {process.number: process for process in processes()}
        for process in present.values():
            key = process.number, process.begun
            # A process is the prover only once it has become another program than its parent.
            check = known.get(key) or (check_of(process) if is_below(process, top, present) else None)
            if check is not None:
                known[key] = check
                check.ended, check.processor = time.time(), process.processor
    Path(log).write_text("".join(json.dumps(asdict(check)) + "\n" for check in known.values()), encoding="utf-8")
    return 0


def is_below(process: Process, top: int, present: Mapping[int, Process]) -> bool:
    """Whether a process is one of those that another has begun, or that these have."""
    while process.parent in present and process.number != top:
        process = present[process.parent]
    return process.number == top


def table(log: str, count: int | None = None) -> Iterator[str]:
    """The processor time by crate, the slowest first, as a table of so many crates or of all."""
    with open(log, encoding="utf-8") as lines:
        checks = [Check(**json.loads(line)) for line in lines]
    seconds: defaultdict[tuple[str, str], float] = defaultdict(float)
    edits: Counter[str] = Counter()
    for check in checks:
        seconds[check.crate, check.kind] += check.processor
        edits[check.crate] += check.kind == "edit"
    if not checks:
        yield "no crate was checked: all of them are kept from earlier runs"
        return
    whole = {crate: sum(seconds[crate, kind] for kind in ("proof", "tests", "edit", "program")) for crate, _ in list(seconds)}
    yield "| crate | proof | tests | edits: checks | edits: seconds | all |"
    yield "|---|---|---|---|---|---|"
    for crate, total in sorted(whole.items(), key=itemgetter(1), reverse=True)[:count]:
        proof = seconds[crate, "proof"] + seconds[crate, "program"]
        yield f"| {crate} | {proof:.0f} | {seconds[crate, 'tests']:.0f} | {edits[crate]} | {seconds[crate, 'edit']:.0f} | {total:.0f} |"
    kinds = [sum(check.processor for check in checks if check.kind in of) / 60 for of in (("proof", "program"), ("tests",), ("edit",))]
    yield f"| all, in minutes | {kinds[0]:.1f} | {kinds[1]:.1f} | {edits.total()} | {kinds[2]:.1f} | {sum(kinds):.1f} |"
    wall = max(check.ended for check in checks) - min(check.begun for check in checks)
    yield f"\n{len(checks)} checks in {wall / 60:.1f} minutes of wall time"


def processor_times(process: subprocess.Popen[bytes]) -> Iterator[tuple[float, float]]:
    """The time, and how many seconds of a processor a process has used by then, about twenty times a second until it ends."""
    ticks = os.sysconf("SC_CLK_TCK")
    used = 0.0
    while process.poll() is None:
        yield time.time(), used
        time.sleep(0.05)
        with suppress(OSError, IndexError):
            fields = Path(f"/proc/{process.pid}/stat").read_text(encoding="utf-8").rpartition(")")[2].split()
            used = sum(map(int, fields[11:15])) / ticks
    yield time.time(), used


def modules_of(name: str) -> Iterator[tuple[str, float]]:
    """The modules of a crate that is checked from nothing, with the seconds that each took."""
    rt = kit()
    os.chdir(TOP)
    rt.rtlib.Crate = rt.Crate
    rt.Crate.cuts_libraries, rt.Crate.allowed = True, rt.handles_of(str(TOP))
    crate = next((it for it in rt.rtlib.crates_below(str(TOP)) if it.name == name), None)
    if crate is None:
        sys.exit(f"gate-times: crates.txt has no crate {name}")
    with tempfile.TemporaryDirectory(prefix="gate-times-") as kept:
        words = [rt.rtlib.RATTLE, "check", *crate.words(["--jobs", "1"], keeps=False), "--incremental", kept]
        with subprocess.Popen(words, cwd=crate.folder, stdout=subprocess.DEVNULL) as prover:
            samples = list(processor_times(prover))
        if prover.returncode:
            sys.exit(f"gate-times: {name} is not proved over what lies in crates/*/out: run rt ci first")
        files = [path for path in Path(kept).rglob("*.oantt") if path.parent.name != "records"]
        last = 0.0
        for ended, module in sorted((path.stat().st_mtime, path.stem) for path in files):
            used = samples[bisect_right(samples, (ended, 0.0)) - 1][1]
            yield module.removeprefix(f"Rattle-{name}-"), used - last
            last = used


def slowest(count: int, names: Sequence[str]) -> Iterator[str]:
    """The slowest functions and files of lemmas of some crates, as a table."""
    seconds: defaultdict[str, float] = defaultdict(float)
    for name in names:
        for module, took in modules_of(name):
            folder, _, rest = module.partition(".")
            what = PART_OF_PROOF.sub("", rest) if folder == "proofs" else f"{folder} {rest}"
            seconds[f"{name}: {what}"] += took
    yield "| function or file of lemmas | seconds |"
    yield "|---|---|"
    yield from (f"| {what} | {took:.1f} |" for what, took in nlargest(count, seconds.items(), key=itemgetter(1)))


def main(words: list[str]) -> int:
    match words:
        case ["watch", log, process] if process.isdigit():
            return watch(log, int(process))
        case ["table", log]:
            print("\n".join(table(log)))
            return 0
        case ["table", log, count] if count.isdigit():
            print("\n".join(table(log, int(count))))
            return 0
        case ["slowest", count, _, *_] if count.isdigit():
            print("\n".join(slowest(int(count), words[2:])))
            return 0
    print(__doc__, end="", file=sys.stderr)
    return 2


if __name__ == "__main__":
    sys.exit(main(sys.argv[1:]))
