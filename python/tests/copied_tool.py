"""Copies of the tools that compile the proved module, over a kit whose prover hands out any module."""

from __future__ import annotations

import os
import shlex
import shutil
import subprocess
import tempfile
from functools import cache
from pathlib import Path

from building.linking import folder_of_kit
from corpus import TOP
from processes import BARE

FOLDERS = ("tools/library", "tools/native", "tools/web", "native", "web", "samples", "python/src", "python/dev/building")
"""What the tools read."""


@cache
def clang() -> str:
    """The compiler of the kit."""
    return f"{folder_of_kit()}/toolchain/bin/clang"


class Copy:
    """A copy in a folder of its own, with two crates that `rt ci` seems to have proved. `kit` has a copy of the kit."""

    def __init__(self) -> None:
        self.held = tempfile.TemporaryDirectory(prefix="copied tool-")
        self.top = Path(os.path.realpath(self.held.name))
        for folder in FOLDERS:
            shutil.copytree(os.path.join(TOP, folder), self.top / folder, ignore=shutil.ignore_patterns("__pycache__"))
        (self.top / "crates.txt").write_text("low:\ntml_c staticlib: low\n", encoding="utf-8")
        for name in ("low", "tml_c"):
            (self.top / f"crates/{name}/src").mkdir(parents=True)
            (self.top / f"crates/{name}/src/lib.rt").touch()
        (self.top / "crates/low/out/rlib/low.rlib").mkdir(parents=True)
        self.kit = self.top / "kit"
        (self.kit / "bin").mkdir(parents=True)
        (self.kit / "toolchain").symlink_to(f"{folder_of_kit()}/toolchain")
        self.program("rt", f"echo {shlex.quote(str(self.kit))}/START-HERE.md")

    def program(self, name: str, text: str) -> None:
        """Puts a script into the kit."""
        (self.kit / "bin" / name).write_text(f"#!/bin/sh\n{text}\n", encoding="utf-8")
        (self.kit / "bin" / name).chmod(0o755)

    def build(self, tool: str, prover: str, path: str | None = None) -> tuple[int, list[str], list[str]]:
        """The status, what was printed, and what was said on standard error, if the prover is this script.

        Besides the kit the tool finds the programs of a path, which is that of this process if none is given.
        """
        self.program("rattle", prover)
        search = f"{self.kit}/bin:{os.environ['PATH'] if path is None else path}"
        variables = {**os.environ, "PATH": search, "PYTHONDONTWRITEBYTECODE": "1"}
        words = [*BARE, str(self.top / tool), str(self.top / "made/here")]
        done = subprocess.run(words, env=variables, capture_output=True, text=True, check=False, timeout=300)
        return done.returncode, done.stdout.splitlines(), done.stderr.splitlines()


def handing(module: Path) -> str:
    """A prover that has its compiler look at a module."""
    given = shlex.quote(str(module))
    return f"""while [ "$1" != --toolchain ]; do shift; done
cp {given} module.bc; "$2/bin/clang" -S -emit-llvm -x ir module.bc -o module.ll"""
