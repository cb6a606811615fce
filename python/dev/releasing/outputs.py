"""What the gate has built in this repository, read and tried: the programs, and the library for C."""

from __future__ import annotations

import tempfile
from collections.abc import Iterable
from dataclasses import dataclass
from functools import cache
from pathlib import Path

from building.compiling import NAME, OUT, TOP, files_of
from building.crates import libraries_below, listed
from building.linking import CannotMake, run
from releasing.source import read
from tml.library import Library
from tml.running import CannotRun

PROGRAM, CHECKER = TOP / "crates/tml/out/tml", TOP / "crates/tml_verify/out/tml_verify"
SHARED, STATIC = OUT / "libtml.so", OUT / "libtml.a"
MADE_BY = {
    PROGRAM: ("tml", ".ci/run"),
    CHECKER: ("tml_verify", ".ci/run"),
    SHARED: ("tml_c", "tools/library/build"),
    STATIC: ("tml_c", "tools/library/build"),
}
"""The crate of each file, and the command that makes the file."""

BINARIES = (PROGRAM, CHECKER, SHARED)
"""What a loader of the system loads."""


@dataclass(frozen=True)
class Outputs:
    """The programs `tml` and `tml-verify`, and the shared and the static library."""

    program: bytes
    checker: bytes
    shared: bytes
    static: bytes


def outputs() -> Outputs:
    """What was built, once all of it is there, is of the crates as they are now, and answers."""
    need_all()
    contents = {path: binary_at(path) if path in BINARIES else path.read_bytes() for path in MADE_BY}
    answered = said_by(PROGRAM, contents[PROGRAM], "drill", "1")
    if not (answered.startswith("drill 1\n") and answered.endswith("\nverified timeline\n")):
        raise CannotMake(f"{shown(PROGRAM)} does not answer `drill 1` as tml does")
    sample = TOP / "crates/tml_verify/data/rates"
    if said_by(CHECKER, contents[CHECKER], f"{sample}.xml", f"{sample}.evidence").encode() != read("crates/tml_verify/stdout"):
        raise CannotMake(f"{shown(CHECKER)} does not verify a sample as tml-verify does")
    try:
        of_library = Library(str(SHARED)).answer("drill", (), ["1"])
    except CannotRun as problem:
        raise CannotMake(str(problem)) from None
    if of_library != (0, answered.encode()):
        raise CannotMake(f"{shown(SHARED)} does not answer `drill 1` as {shown(PROGRAM)} does")
    return Outputs(*contents.values())


def need_all() -> None:
    """Sees that each file is there, and that its crate and those below it are as they were when it was made."""
    missing = [path for path in MADE_BY if not path.is_file()]
    if missing:
        raise CannotMake(f"no {', '.join(map(shown, missing))}: {MADE_BY[missing[0]][1]} makes what is missing")
    for path, (crate, _) in MADE_BY.items():
        if changed_below(crate) > path.stat().st_mtime:
            raise CannotMake(f"crates were changed after {shown(path)} was made: .ci/run makes it anew")


def made_apart(folder: Path, names: Iterable[str], sources: Iterable[Path]) -> dict[str, bytes]:
    """Files by their names that a tool makes in a folder, of the crate tml_c and of further sources, and that a release may lack.

    There are none if one is missing, or older than what it is made of.
    """
    paths = [folder / name for name in names]
    newest = max(changed_below(NAME), *(path.stat().st_mtime for path in sources))
    are_made = all(path.is_file() and path.stat().st_mtime >= newest for path in paths)
    return {path.name: without_place(path) for path in paths} if are_made else {}


def changed_below(crate: str) -> float:
    """When a file of a crate, or of one below it, was changed last, in seconds from 1970."""
    return max(map(changed, (crate, *libraries_below(crate, dict(listed())))))


@cache
def changed(crate: str) -> float:
    """When a file of a crate was changed last, in seconds from 1970."""
    return max((file.stat().st_mtime for file in files_of(crate)), default=0.0)


def binary_at(path: Path) -> bytes:
    """A program or library for amd64."""
    content = without_place(path)
    if content[:5] != b"\x7fELF\x02" or content[18:20] != b"\x3e\0":
        raise CannotMake(f"{shown(path)} is no program or library for amd64")
    return content


def without_place(path: Path) -> bytes:
    """A file that does not name the folder in which it was made."""
    content = path.read_bytes()
    if bytes(TOP) in content:
        raise CannotMake(f"{shown(path)} has the path of this clone in it")
    return content


def said_by(path: Path, content: bytes, *arguments: str) -> str:
    """What the program at a path with this content prints, run out of a folder of its own."""
    with tempfile.TemporaryDirectory() as folder:
        program = Path(folder, path.name)
        program.write_bytes(content)
        program.chmod(0o755)
        try:
            return run([str(program), *arguments])
        except CannotMake as problem:
            raise CannotMake(f"{shown(path)} does not answer: {problem}") from None


def shown(path: Path) -> str:
    """A path as somebody at the top of the repository writes it."""
    return path.relative_to(TOP).as_posix()
