"""Prints the record of a release: what the gate proved of a commit, and the sums of what was made of it.

LOG is what `.ci/run` or `rt ci --anew` printed. The record has the commit, the kit, and for each crate of crates.txt how many functions
were proved and the sum of its sources; then the last line of the gate, and the sums of programs, libraries, files for browsers if all
are there, and docs/promises.txt. Its last lines are those that `sha256sum --check` reads. The same commit, log and binaries give the
same bytes.

The sum of sources is the SHA-256 of two netstrings (`LENGTH:BYTES,`, the length in decimal) for each file of the crate that git tracks, by
sorted path: its path below the top, and its content.

A log does not name its commit: whoever makes a record says that this is the log of the commit, and that these are the binaries.

Status 0 says that the record was printed; 1 that there is none, with the reason on standard error; and 2 that the arguments are of no
known form.

Example: .ci/run >gate.log && tools/proof-record gate.log >record.txt
"""

from __future__ import annotations

import argparse
import re
import sys
from collections import defaultdict
from collections.abc import Iterable, Mapping, Sequence
from dataclasses import dataclass, field
from hashlib import sha256
from pathlib import Path

from building.compiling import TOP
from building.crates import listed
from building.linking import CannotMake, run
from promises.listing import LIST, Listing
from promises.scanning import Unreadable
from promises.tree import Tree
from releasing.browsers import FOLDER, NAMES
from releasing.outputs import MADE_BY, shown
from releasing.source import is_clean
from tml_corpus import VERSION

MOST = 64 << 20
"""The most bytes of a log."""

HEADING = re.compile(r"== (\w+)", re.ASCII)
VERDICT = re.compile(r"rt: (\w+) (proved|NOT PROVED|is kept\b.*)", re.ASCII)
PASSED = "rt: ok; "
ALL_ANEW = "; every proof and must-fail edit was done in this run"
LAST = re.compile(r"(\d{1,9}) passed, (\d{1,9}) failed", re.ASCII)
FAILED = re.compile(r"rt: FAILED: .*|rt: .*NOT PROVED|\d{1,9} passed, (?!0 )\d{1,9} failed|.* s  the part that failed", re.ASCII)


@dataclass
class Said:
    """What a log says of a crate: the fields of each line that counts its functions, and the verdicts."""

    counts: list[dict[str, str]] = field(default_factory=list)
    verdicts: list[str] = field(default_factory=list)


def main(arguments: Sequence[str]) -> int:
    """Prints the record, and answers the status."""
    parser = argparse.ArgumentParser(prog="proof-record", description=__doc__, formatter_class=argparse.RawDescriptionHelpFormatter)
    parser.add_argument("--version", action="version", version=f"%(prog)s {VERSION}")
    parser.add_argument("log", type=Path, metavar="LOG", help="what the gate printed")
    parser.add_argument("--tree", type=Path, metavar="DIR", default=TOP, help="the clone in which it ran (default: the one of this tool)")
    options = parser.parse_args(arguments)
    try:
        print(record(options.log, options.tree), end="")
    except (CannotMake, Unreadable, OSError, ValueError, LookupError) as problem:
        print(f"proof-record: {str(problem):.4000}", file=sys.stderr)
        return 1
    return 0


def record(log: Path, tree: Path) -> str:
    """The record of a clone with its binaries, by the log of the gate."""
    need_clean(tree)
    kit = run(["rt", "version"]).strip()
    sources = named_by_git(tree, "crates", "web")
    files = {crate: [name for name in sources if name.startswith(f"crates/{crate}/")] for crate, _ in listed(tree)}
    if not all(files.values()) or not files:
        raise CannotMake(f"no files of: {', '.join(one for one, names in files.items() if not names) or 'any crate'}")
    edits = sum(Path(name).match("crates/*/must-fail/*.edit") for name in sources)
    functions, last = proved(lines_of(log), list(files), edits, kit)
    lines = [f"commit {run(['git', '-C', str(tree), 'rev-parse', 'HEAD']).strip()}", f"kit {kit}"]
    lines += [f"crate {one} proved functions={functions[one]} sources={sum_of_sources(tree, names)}" for one, names in files.items()]
    lines += [f"gate {last}", *sums_of(tree, sources), sum_line(promises(tree), str(LIST))]
    return "".join(f"{line}\n" for line in lines)


def need_clean(tree: Path) -> None:
    """Sees that a clone has the files of its commit, and what the gate made, but no others that the prover could read."""
    ignored = named_by_git(tree, "--others", "--ignored", "--exclude-standard", "--", "crates")
    others = [name for name in ignored if not re.match(r"crates/\w+/out/", name)]
    if others or not is_clean(tree):
        raise CannotMake(f"{tree} is not as it was committed: {', '.join(others) or '`git status` names the files'}")


def lines_of(log: Path) -> list[str]:
    """The lines of a log."""
    with log.open("rb") as file:
        content = file.read(MOST + 1)
    if len(content) > MOST:
        raise CannotMake(f"{log} has more than {MOST} bytes")
    return content.decode("utf-8", "replace").split("\n")


def proved(lines: Sequence[str], crates: Sequence[str], edits: int, kit: str) -> tuple[dict[str, int], str]:
    """How many functions of each crate were proved, and the last line of the gate. What is wrong with the log is an error."""
    logic = re.fullmatch(r".* logic ([0-9a-f]{16})", kit)
    if logic is None:
        raise CannotMake(f"`rt version` printed {kit!r}, which names no logic")
    said = said_of_crates(lines)
    problems: defaultdict[str, list[str]] = defaultdict(list)
    for crate in dict.fromkeys([*crates, *said]):
        problems[problem_of(said.get(crate, Said()), logic[1]) if crate in crates else "not in crates.txt"].append(crate)
    problems.pop("", None)
    if problems:
        raise CannotMake("; ".join(f"{problem}: {', '.join(names)}" for problem, names in problems.items()))
    return {crate: int(said[crate].counts[0]["functions"]) for crate in crates}, last_line(lines, len(crates) + edits)


def said_of_crates(lines: Iterable[str]) -> Mapping[str, Said]:
    """What a log says of each crate. A count is that of the crate whose heading came last, up to the verdict."""
    said: defaultdict[str, Said] = defaultdict(Said)
    current = ""
    for line in lines:
        if heading := HEADING.fullmatch(line):
            current = heading[1]
        elif verdict := VERDICT.fullmatch(line):
            said[verdict[1]].verdicts.append(verdict[2])
            current = ""
        elif current and line.startswith("logic="):
            said[current].counts.append({name: value for name, _, value in (word.partition("=") for word in line.split())})
    return said


def problem_of(said: Said, logic: str) -> str:
    """Why the log does not show that the kit with this logic proved a crate; empty if it does."""
    if any(verdict.startswith("is kept") for verdict in said.verdicts):
        return "kept from an earlier run, without a count"
    if "NOT PROVED" in said.verdicts or any(one["logic"] != "proved" for one in said.counts):
        return "not proved"
    if not said.verdicts:
        return "without a verdict in the log"
    if len(said.verdicts) > 1 or len(said.counts) > 1:
        return "in the log more than once"
    if not said.counts or not re.fullmatch(r"\d{1,9}", said.counts[0].get("functions", ""), re.ASCII):
        return "without a count of functions"
    kit = said.counts[0].get("sum", "none")
    return "" if kit == logic else f"proved by a kit with the logic {kit!r}, and not {logic}"


def last_line(lines: Sequence[str], whole: int) -> str:
    """The last line of a gate that passed, with as many passed as there are crates and edits in all."""
    failed = [line for line in lines if FAILED.fullmatch(line)]
    if failed:
        raise CannotMake(f"the log says {failed[0]!r}")
    places = [place for place, line in enumerate(lines) if line.startswith(PASSED)]
    if len(places) != 1:
        raise CannotMake(f"the log has {len(places)} lines `{PASSED.strip()}`, and that of one gate that passed has one")
    if not lines[places[0]].endswith(ALL_ANEW):
        raise CannotMake(f"the gate kept what an earlier run had done: `rt ci --anew` keeps nothing. It says {lines[places[0]]!r}")
    last = next(filter(LAST.fullmatch, lines[places[0] :]), "no last line")
    if last != f"{whole} passed, 0 failed":
        raise CannotMake(f"the gate ends with {last!r}, and the tree has {whole} crates and must-fail edits")
    return last


def named_by_git(tree: Path, *arguments: str) -> list[str]:
    """The files that `git ls-files` names, by sorted path below the top."""
    return sorted(run(["git", "-C", str(tree), "ls-files", "-z", *arguments]).split("\0")[:-1])


def sum_of_sources(tree: Path, names: Iterable[str]) -> str:
    """The sum of some files, with their paths."""
    pieces = (piece for name in names for piece in (name.encode(), (tree / name).read_bytes()))
    return sha256(b"".join(b"%d:%s," % (len(piece), piece) for piece in pieces)).hexdigest()


def sums_of(tree: Path, sources: Iterable[str]) -> list[str]:
    """The lines of the binaries, which have to be newer than the sources. The files for browsers are left out if none is there."""
    web = [shown(FOLDER / name) for name in NAMES]
    names = [*map(shown, MADE_BY), *(web if any((tree / name).exists() for name in web) else ())]
    missing = [name for name in names if not (tree / name).is_file()]
    if missing:
        raise CannotMake(f"not there: {', '.join(missing)}")
    newest = max((tree / name).stat().st_mtime for name in sources)
    older = [name for name in names if (tree / name).stat().st_mtime < newest]
    if older:
        raise CannotMake(f"older than a file of crates or web: {', '.join(older)}")
    return [sum_line((tree / name).read_bytes(), name) for name in names]


def promises(tree: Path) -> bytes:
    """The file of promises, which has to be what the crates promise."""
    content = (tree / LIST).read_bytes()
    if Listing(Tree(tree)).text().encode() != content:
        raise CannotMake(f"{LIST} is not what the crates promise: tools/promises writes it")
    return content


def sum_line(content: bytes, name: str) -> str:
    """A line as `sha256sum` prints it."""
    return f"{sha256(content).hexdigest()}  {name}"
