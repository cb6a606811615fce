"""The file `tml-corpus.toml` at the top of a corpus: what holds for this corpus without being said each time."""

from __future__ import annotations

import os
from collections.abc import Callable
from typing import NamedTuple

from ..asking.program import CannotRun

NAME = "tml-corpus.toml"


class Settings(NamedTuple):
    """What the file says: own wrappers, kinds of warnings that are ignored or given on demand, patterns for names, and jobs."""

    path: str = ""
    wrappers: tuple[str, ...] = ()
    ignore: tuple[str, ...] = ()
    warn: tuple[str, ...] = ()
    patterns: tuple[str, ...] = ()
    jobs: int | None = None


class Nearest(NamedTuple):
    """The nearest file of settings for a path, if there is one, and those that were passed by because another user owns them."""

    place: str | None
    passed_by: tuple[str, ...]


class Chosen(NamedTuple):
    """The settings for some paths, and a line for each file that was passed by."""

    settings: Settings
    remarks: tuple[str, ...] = ()


def settings_for(paths: list[str], chosen: str | None, read: Callable[[str], Settings] | None = None) -> Chosen:
    """The settings for some paths: of the chosen file, or of the one that lies in their folders or nearest above.

    Another reader than `settings_at` may read it.
    """
    read = read or settings_at
    if chosen is not None:
        return Chosen(read(chosen))
    nearest = [nearest_file(path) for path in paths]
    places = list(dict.fromkeys(one.place for one in nearest if one.place is not None))
    if len(places) > 1:
        raise CannotRun(f"the paths have several files of settings ({', '.join(places)}): choose one by --config FILE")
    passed_by = dict.fromkeys(place for one in nearest for place in one.passed_by)
    remarks = tuple(f"{place} belongs to another user and is not read (--config FILE reads it)" for place in passed_by)
    return Chosen(read(places[0]) if places else Settings(), remarks)


def settings_at(path: str) -> Settings:
    """The settings of a file. What reads one is loaded where there is one."""
    from .settings_file import read_settings

    return read_settings(path)


def nearest_file(path: str) -> Nearest:
    """The file of settings in the folder of a path, or the nearest one above it that this user owns, but none above the user's home."""
    lowest = folder = os.path.abspath(path if os.path.isdir(path) else os.path.dirname(path))
    passed_by: list[str] = []
    while True:
        place = os.path.join(folder, NAME)
        if os.path.isfile(place):
            if folder == lowest or is_own(place):
                return Nearest(place, tuple(passed_by))
            passed_by.append(place)
        above = os.path.dirname(folder)
        if folder in (above, os.path.expanduser("~")):
            return Nearest(None, tuple(passed_by))
        folder = above


def is_own(place: str) -> bool:
    """Whether this user owns what lies at a place: of a symbolic link the link itself counts."""
    try:
        return os.lstat(place).st_uid == os.geteuid()
    except OSError:
        return False
