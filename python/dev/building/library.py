"""Makes the library for C: crates/tml_c/out/libtml.so, the shared one, and crates/tml_c/out/libtml.a, the static one.

The crate tml_c is proved once more, over the libraries that `rt ci` proved and left in crates/*/out, and is compiled to the archive
crates/tml_c/out/libtml_c.a; what the prover says goes to standard error. Then both are linked. (`rt lib` makes the archive too, but
proves all crates below for it.) `rt`, `cc`, `ld`, `objcopy` and `ar` are needed.

Status 0 says that both were written, and their paths were printed; 1 that they cannot be made, with the reason on standard error;
and 2 that the words are of no known form.

Example: rt ci && tools/library/build
"""

from __future__ import annotations

import argparse
import os
import sys
from pathlib import Path

from building.compiling import ARCHIVE, OUT, compile_crate
from building.linking import CannotMake, folder_of_kit, linked, need_programs
from tml_corpus import VERSION


def main(words: list[str]) -> int:
    """Makes both and answers the status."""
    parser = argparse.ArgumentParser(prog="build", description=__doc__, formatter_class=argparse.RawDescriptionHelpFormatter)
    parser.add_argument("--version", action="version", version=f"%(prog)s {VERSION}")
    parser.parse_args(words)
    try:
        need_programs()
        compile_crate(folder_of_kit())
        shared, static = linked(str(ARCHIVE))
        for name, content in (("libtml.so", shared), ("libtml.a", static)):
            print(written(OUT / name, content))
    except (CannotMake, OSError) as problem:
        print(f"build: {problem}", file=sys.stderr)
        return 1
    return 0


def written(path: Path, content: bytes) -> Path:
    """Writes a file whole, in one step, so that no program that has the old one loaded sees another one in its place."""
    beside = path.with_name(f".{path.name}.{os.getpid()}")
    try:
        beside.write_bytes(content)
        return beside.replace(path)
    finally:
        beside.unlink(missing_ok=True)
