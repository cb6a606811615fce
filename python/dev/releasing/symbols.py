"""What programs and libraries need of the system that runs them, as `readelf` reads it: the C library, and from which version on."""

from __future__ import annotations

import re
from collections.abc import Iterable
from pathlib import Path

from building.linking import CannotMake, run

LIBRARIES = frozenset({"libc.so.6", "libm.so.6", "libgcc_s.so.1", "ld-linux-x86-64.so.2", "ld-linux-aarch64.so.1"})
"""The libraries that each Linux has on which wheels are installed."""

OLDEST = (2, 5)
"""The oldest version of the C library that pip knows in the names of wheels."""

RELATIVE = "ABI_DT_RELR"
"""What a program needs that has its relocations packed, which the C library reads from 2.36 on."""


def glibc_of(paths: Iterable[Path]) -> tuple[int, int]:
    """The oldest version of the C library that has all symbols which some programs and libraries need."""
    return max((version for path in paths for version in versions_needed(path)), default=OLDEST)


def versions_needed(path: Path) -> list[tuple[int, int]]:
    """The versions of the C library that a program or library names. Any other library that it needs is an error."""
    printed = run(["readelf", "--wide", "--dynamic", "--version-info", str(path)])
    others = set(re.findall(r"\(NEEDED\) +Shared library: \[(.*?)\]", printed)) - LIBRARIES
    if others:
        raise CannotMake(f"{path.name} needs {', '.join(sorted(others))}, which not every Linux has")
    found = {OLDEST}
    for name in re.findall(r" Name: GLIBC_(\S+)", printed):
        number = re.match(r"(\d+)\.(\d+)", "2.36" if name == RELATIVE else name)
        if number is None:
            raise CannotMake(f"{path.name} needs GLIBC_{name}, which is of no known version of the C library")
        found.add((int(number[1]), int(number[2])))
    return sorted(found)
