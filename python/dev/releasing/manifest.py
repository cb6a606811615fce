"""MANIFEST, which says what a release was made from and what it has, and SHA256SUMS, by which `sha256sum --check` looks it over."""

from __future__ import annotations

from hashlib import sha256
from pathlib import Path

from building.linking import CannotMake
from releasing.source import Source, project

NAME, SUMS = "MANIFEST", "SHA256SUMS"
CLEAN = "tree     clean"
"""The line of a release whose files were all committed."""


def manifest(source: Source, glibc: tuple[int, int], files: dict[str, bytes]) -> bytes:
    """The commit, whether the files were those of the commit, the kit, versions, and the size of each file in bytes."""
    fields = {
        "version": source.version,
        "commit": source.commit,
        "tree": "clean" if source.is_clean else "changed after the commit",
        "kit": source.kit,
        "glibc": "{}.{} or newer".format(*glibc),
        "python": project()["requires-python"],
    }
    return with_sizes("\n".join(f"{name:8} {value}" for name, value in fields.items()), files)


def with_sizes(head: str, files: dict[str, bytes]) -> bytes:
    """A manifest of these lines, which say what the files were made from, and of a line with the size of each file."""
    lines = [head, "", *(f"{len(content):10} {name}" for name, content in sorted(files.items()))]
    return "".join(f"{line}\n" for line in lines).encode()


def sums(files: dict[str, bytes]) -> bytes:
    """The sum of each file."""
    return "".join(f"{sha256(content).hexdigest()}  {name}\n" for name, content in sorted(files.items())).encode()


def need_whole(folder: Path) -> None:
    """Sees that a folder has the files of a release, that they fit their sums, and that it has no others."""
    listed = folder / SUMS
    if not listed.is_file():
        raise CannotMake(f"{folder} is no release: it has no {SUMS}")
    if sums({path.name: path.read_bytes() for path in folder.iterdir() if path != listed}) != listed.read_bytes():
        raise CannotMake(f"{folder} is no whole release: its files are not those of {SUMS}")
