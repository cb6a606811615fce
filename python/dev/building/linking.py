"""Links the library for C from the archive of the crate tml_c and the three functions of the kit by which it takes memory.

Both libraries show nothing but the functions of tml.h.
"""

from __future__ import annotations

import os
import shutil
import subprocess
import tempfile
from collections.abc import Sequence
from pathlib import Path

EXPORTS = ("tml_answer", "tml_most_of_document", "tml_most_of_evidence")
"""The functions of tml.h, which tml.map names too."""
SONAME = "libtml.so.0"
"""The name by which a program that was linked with the shared library asks for it."""
PROGRAMS = ("rt", "cc", "ld", "objcopy", "ar")
VERSIONS = str(Path(__file__).resolve().parents[3] / "tools/library/tml.map")
SHARED = (
    "-shared",
    f"-Wl,-soname,{SONAME},--version-script={VERSIONS}",
    "-Wl,-z,relro,-z,now,-z,noexecstack,-z,defs,--build-id=none",
)
"""How a compiler links the shared library."""


class CannotMake(Exception):
    """Something cannot be made."""


def need_programs(names: Sequence[str] = PROGRAMS) -> None:
    """Sees that some programs are there: by default those by which the library is made."""
    missing = [name for name in names if shutil.which(name) is None]
    if missing:
        raise CannotMake(f"not installed: {', '.join(missing)}")


def folder_of_kit() -> str:
    """Where the kit of `rt` lies: beside the page that it says to read first."""
    return os.path.dirname(os.path.realpath(run(["rt", "doc"]).strip()))


def linked(archive: str) -> tuple[bytes, bytes]:
    """The shared and the static library."""
    if not os.path.isfile(archive):
        raise CannotMake(f"no archive {archive}: tools/library/build makes it")
    need_programs()
    heap = os.path.join(folder_of_kit(), "c", "liblibc_c.a")
    with tempfile.TemporaryDirectory() as folder:
        one, shared, static = (os.path.join(folder, name) for name in ("tml.o", SONAME, "libtml.a"))
        run(["ld", "-r", "--whole-archive", archive, "--no-whole-archive", heap, "-o", one])
        run(["objcopy", *(f"--keep-global-symbol={name}" for name in EXPORTS), one])
        run(["ar", "rcsD", static, one])
        run(["cc", *SHARED, "-o", shared, one])
        with open(shared, "rb") as first, open(static, "rb") as second:
            return first.read(), second.read()


def run(words: list[str], **variables: str) -> str:
    """What a program prints; it has to end with status 0."""
    try:
        done = subprocess.run(words, capture_output=True, check=False, timeout=300, env={**os.environ, **variables})
    except (OSError, subprocess.TimeoutExpired) as problem:
        raise CannotMake(f"{words[0]} cannot be run: {problem}") from None
    if done.returncode != 0:
        said = done.stderr.decode("utf-8", "replace").strip()
        raise CannotMake(f"{words[0]} ended with status {done.returncode}: {said}")
    return done.stdout.decode("utf-8", "replace")
