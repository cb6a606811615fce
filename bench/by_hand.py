"""Builds bench/plain/plain.rs, the program that is written by hand."""

from __future__ import annotations

import shutil
import subprocess
import sys
from pathlib import Path

SOURCE = Path(__file__).resolve().parent / "plain" / "plain.rs"


def built(folder: Path) -> str:
    """The plain program, built."""
    compiler = shutil.which("rustc")
    if compiler is None:
        sys.exit(f"rustc is not in the PATH, so {SOURCE} cannot be built")
    program = str(folder / "plain")
    subprocess.run([compiler, "--edition", "2021", "-O", "-C", "codegen-units=1", "-o", program, str(SOURCE)], check=True)
    return program
