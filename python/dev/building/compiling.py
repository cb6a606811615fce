"""Compiles the crate tml_c, over the libraries that `rt ci` proved and left in crates/*/out, and keeps what the compiler was handed.

The crate is proved once more; what the prover says goes to standard error. It leaves the archive crates/tml_c/out/libtml_c.a, and next to
it the module of LLVM that it was compiled from. (`rt lib` makes the archive too, but proves all crates below for it.)
"""

from __future__ import annotations

import subprocess
import sys
import tempfile
from collections.abc import Iterator
from pathlib import Path
from shlex import quote

from building.crates import libraries_below, listed
from building.linking import CannotMake

TOP = Path(__file__).resolve().parents[3]
CRATES = TOP / "crates"
NAME = "tml_c"
OUT = CRATES / NAME / "out"
ARCHIVE = OUT / f"lib{NAME}.a"
MODULE = OUT / f"lib{NAME}.bc"
COMPILER = Path(__file__).resolve().parent / "templates/clang"


def module_of(kit: str) -> Path:
    """The module that the compiler was handed; the crate is compiled anew if it, or a library below it, has changed since."""
    below = libraries_below(NAME, dict(listed()))
    for library in below:
        need_library(library)
    since = (TOP / "crates.txt", *files_of(NAME), *map(rlib, below))
    if not MODULE.exists() or MODULE.stat().st_mtime <= max(path.stat().st_mtime for path in since):
        compile_crate(kit)
    if not MODULE.exists():
        raise CannotMake("rattle has handed no module to its compiler")
    return MODULE


def compile_crate(kit: str) -> None:
    """Proves the crate over the libraries that are there, and compiles it, as `rt lib` does after it has built those."""
    uses = dict(listed())
    below = libraries_below(NAME, uses)
    for library in below:
        need_library(library)
    MODULE.unlink(missing_ok=True)
    places = {library: rlib(library) for library in below}
    words = [f"{kit}/bin/rattle", "build", "--crate-name", NAME, "src/lib.rt", "--crate-type", "staticlib", "--links", f"{NAME}="]
    for library in ("std", *uses[NAME]):
        words += ["--extern", f"{library}={places.get(library, f'{kit}/rlibs/{library}.rlib')}"]
    for folder in (f"{kit}/rlibs", *(place.parent for place in places.values())):
        words += ["-L", f"dependency={folder}"]
    words += ["--antt-project", f"{kit}/rattle/logic/antt-project.json", "--logic-built", f"{kit}/logic_built", "--jobs", "2"]
    OUT.mkdir(exist_ok=True)
    with tempfile.TemporaryDirectory(prefix=".module-", dir=OUT) as folder:
        kept = Path(folder, MODULE.name)
        words += ["--toolchain", toolchain(kit, Path(folder), kept), "--backend", "llvm", "-o", str(ARCHIVE)]
        status = subprocess.run(words, cwd=CRATES / NAME, stdin=subprocess.DEVNULL, stdout=sys.stderr, check=False).returncode
        if status != 0:
            raise CannotMake(f"the crate {NAME} was not built: rattle ended with status {status}")
        if kept.exists():
            kept.replace(MODULE)


def toolchain(kit: str, folder: Path, kept: Path) -> str:
    """Makes a folder for the toolchain of the kit, whose compiler keeps what it is handed, and answers its name."""
    (folder / "bin").mkdir()
    for name in ("bin/ld.lld", "bin/llvm-ar", "bin/rattle-x64", "lib"):
        (folder / name).symlink_to(f"{kit}/toolchain/{name}")
    clang = folder / "bin/clang"
    text = COMPILER.read_text(encoding="utf-8").replace("@KEPT@", quote(str(kept)))
    clang.write_text(text.replace("@CLANG@", quote(f"{kit}/toolchain/bin/clang")), encoding="utf-8")
    clang.chmod(0o755)
    return str(folder)


def rlib(library: str) -> Path:
    """Where `rt ci` leaves a library."""
    return CRATES / library / "out" / "rlib" / f"{library}.rlib"


def files_of(crate: str) -> Iterator[Path]:
    """What a crate is made of."""
    return (file for part in ("src", "specs", "proofs") for file in (CRATES / crate / part).rglob("*"))


def need_library(library: str) -> None:
    """Sees that a library is there, and that none of its files was changed after it was made."""
    made = rlib(library)
    if not made.is_dir():
        raise CannotMake(f"no library {made}: `rt ci` has to run first")
    newest = max(file.stat().st_mtime for file in files_of(library))
    if newest > made.stat().st_mtime:
        raise CannotMake(f"crates/{library} was changed after `rt ci`, which has to run again")
