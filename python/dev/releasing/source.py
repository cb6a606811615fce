"""The state of the repository that a release is made from: its version, its commit, and the kit."""

from __future__ import annotations

import re
from dataclasses import dataclass
from datetime import datetime, timedelta, timezone
from pathlib import Path
from typing import Any

import tomllib

from building.compiling import TOP
from building.linking import CannotMake, run
from tml_corpus import VERSION


@dataclass(frozen=True)
class Version:
    """A version and its date, from a heading of CHANGELOG.md."""

    name: str
    date: datetime


@dataclass(frozen=True)
class Source:
    """What a release is made from.

    `versions` has the newest first, and the newest is that of the release. `time` is that of the commit, in seconds from 1970: all files
    get it. `is_clean` says that the files of the commit were not changed since, and that no other ones lie between them. `kit` is the line
    that `rt version` prints.
    """

    versions: tuple[Version, ...]
    commit: str
    is_clean: bool
    time: int
    maintainer: str
    kit: str

    @property
    def version(self) -> str:
        """The version of everything in the release."""
        return self.versions[0].name


def source_of(maintainer: str | None = None) -> Source:
    """The state of this clone. The author of the last commit maintains the packages if nobody is named."""
    commit, time, author = run(["git", "-C", str(TOP), "log", "-1", "--format=%H%n%ct%n%an <%ae>"]).splitlines()
    versions = versions_of(text_of("CHANGELOG.md"))
    if versions[0].name != VERSION:
        raise CannotMake(f"the newest version of CHANGELOG.md is {versions[0].name}, and that of the package tml is {VERSION}")
    return Source(versions, commit, is_clean(), int(time), maintainer or author, run(["rt", "version"]).strip())


def is_clean(top: Path = TOP) -> bool:
    """Whether the files of a clone are as they were committed, and no other ones lie between them but what git ignores."""
    return not run(["git", "-C", str(top), "status", "--porcelain", "--untracked-files=all"])


def versions_of(changes: str) -> tuple[Version, ...]:
    """The versions of CHANGELOG.md, the newest first. If a day has several, each is a minute after the one before it.

    What is not released yet is none.
    """
    headings = re.findall(r"^## (?!\[Unreleased\]$)(.*)$", changes, re.MULTILINE)
    found = [re.fullmatch(r"\[(\d+\.\d+\.\d+)\] - (\d{4}-\d\d-\d\d)", heading) for heading in headings]
    if not found or None in found:
        raise CannotMake("CHANGELOG.md has a heading that is not `## [VERSION] - DATE`, or none")
    days = [(one[1], datetime.fromisoformat(one[2]).replace(tzinfo=timezone.utc)) for one in found if one]
    earlier = [sum(day == other for _, other in days[place + 1 :]) for place, (_, day) in enumerate(days)]
    return tuple(Version(name, day + timedelta(minutes=minutes)) for (name, day), minutes in zip(days, earlier, strict=True))


def project() -> dict[str, Any]:
    """What pyproject.toml says of the packages of Python."""
    found: dict[str, Any] = tomllib.loads(text_of("pyproject.toml"))["project"]
    return found


def read(name: str) -> bytes:
    """A file of the repository."""
    return (TOP / name).read_bytes()


def text_of(name: str) -> str:
    """The text of a file of the repository."""
    return read(name).decode()


def names_in(folder: str, end: str = "") -> list[str]:
    """The files of a folder of the repository whose names have an end, in order."""
    return sorted(f"{folder}/{one.name}" for one in Path(TOP, folder).iterdir() if one.is_file() and one.name.endswith(end))


def modules() -> list[str]:
    """The modules of the packages of Python and what marks them as typed, in order, with their names in the repository."""
    return sorted(path.relative_to(TOP).as_posix() for end in ("py", "typed") for path in Path(TOP, "python/src").rglob(f"*.{end}"))
