"""The crates of this repository, as crates.txt has them."""

from __future__ import annotations

from collections.abc import Iterator
from pathlib import Path

TOP = Path(__file__).resolve().parents[3]


def listed(top: Path = TOP) -> Iterator[tuple[str, list[str]]]:
    """The crates of the crates.txt of a clone, each with the libraries that it uses."""
    for line in (top / "crates.txt").read_text(encoding="utf-8").splitlines():
        name, colon, uses = line.partition(":")
        if colon and not line.startswith("#"):
            yield name.split()[0], uses.split()


def libraries_below(crate: str, uses: dict[str, list[str]]) -> list[str]:
    """The libraries of this repository that a crate uses, and that these use."""
    found: dict[str, None] = {}
    waiting = [crate]
    while waiting:
        new = [library for library in uses[waiting.pop()] if library in uses and library not in found]
        found |= dict.fromkeys(new)
        waiting += new
    return list(found)
