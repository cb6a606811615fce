"""Files: finding them in folders, reading no more of them than the limit, and showing their names."""

import os
import re
import stat
from collections.abc import Callable, Iterator, Sequence
from itertools import chain
from typing import NamedTuple

from tml.running import PART, Expected
from tml.saying import counted as counted  # noqa: F401 (which many take from here)
from tml.saying import shown as shown  # noqa: F401
from tml.statuses import DOCUMENT_LIMIT

PATTERNS = ("*.tml", "*.xml")

LONGEST_LINE = 65536
"""How many bytes a line of a table or of a baseline has at most. One of a baseline has a path and a tag of 80 characters, in ASCII."""


class CannotRead(Expected):
    """A file or folder cannot be read, or is none."""


class Found(NamedTuple):
    """One file to look at, or a path that stands for none, with the reason."""

    path: str
    problem: str | None = None
    base: str = ""
    """The folder to which the path belongs, where another one is the current folder."""
    lies_at: str = ""
    """Where it lies, where its path is only a name for it."""
    top: str = ""
    """The folder in which a search found it, where it was not named itself."""

    def place(self) -> str:
        """Where the file lies. A path that stands for none cannot be read, for its reason."""
        if self.problem is not None:
            raise CannotRead(self.problem)
        return self.lies_at or (os.path.join(self.base, self.path) if self.base else self.path)

    def is_found_link(self) -> bool:
        """Whether it is a symbolic link that a search found. It may lead anywhere, so that nothing is written through it."""
        return bool(self.top) and os.path.islink(self.place())


def find_files(paths: Sequence[str], patterns: Sequence[str]) -> list[Found]:
    """The files that the paths stand for: a file is itself, a folder all files below it that match a pattern.

    The order is that of the paths, and within a folder that of the names, so it is the same in each run. No file is
    named twice; one that is named and found is one that is named. Folders that are symbolic links are not entered, so no
    loop of them holds the search.
    """
    lists = [search_folder(path, patterns) if os.path.isdir(path) else [Found(path)] for path in paths]
    if len(lists) == 1:
        return lists[0]
    found: dict[str, Found] = {}
    for one in chain.from_iterable(lists):
        if one.path not in found or not one.top:
            found[one.path] = one
    return list(found.values())


def search_folder(folder: str, patterns: Sequence[str]) -> list[Found]:
    """The matching files below a folder, and the folders that could not be read."""
    found: list[Found] = []
    matches = matcher(patterns)
    left = [folder]
    while left:
        place = left.pop()
        try:
            names, below = entries_of(place, matches)
        except OSError as error:
            found.append(Found(place, reason(error)))
            continue
        begin = os.path.join(place, "")
        found += [Found(begin + name, top=folder) for name in sorted(names)]
        left += [begin + name for name in sorted(below, reverse=True)]
    if not found:
        return [Found(folder, f"no file in this folder matches {' or '.join(patterns)}")]
    return found


def matcher(patterns: Sequence[str]) -> Callable[[str], object]:
    """What tells whether a name matches one of some patterns, in any case of letters.

    Most patterns say how a name ends, which is seen faster.
    """
    ends = tuple(pattern[1:].lower() for pattern in patterns)
    if all(pattern.startswith("*") and not set("*?[") & set(end) for pattern, end in zip(patterns, ends, strict=True)):
        return lambda name: name.lower().endswith(ends)
    import fnmatch

    return re.compile("|".join(map(fnmatch.translate, patterns)), re.IGNORECASE).match


def entries_of(place: str, matches: Callable[[str], object]) -> tuple[list[str], list[str]]:
    """The names of what matches in a folder, and those of the folders in it that are to be entered."""
    names, below = [], []
    with os.scandir(place) as entries:
        for entry in entries:
            name = entry.name
            try:
                is_folder = entry.is_dir(follow_symlinks=False)
            except OSError:
                is_folder = False
            if is_folder:
                below.append(name)
            elif matches(name) and not (entry.is_symlink() and os.path.isdir(entry.path)):
                names.append(name)
    return names, below


def lines_of(path: str) -> Iterator[bytes]:
    """The lines of a file with their ends, one by one. One that is too long is cut behind the first byte too many, and is the last."""
    with open(handle_of(path)[0], "rb") as lines:
        try:
            while line := lines.readline(LONGEST_LINE + 1):
                yield line
                if len(line) > LONGEST_LINE:
                    return
        except OSError as error:
            raise CannotRead(reason(error)) from None


def handle_of(path: str) -> tuple[int, int]:
    """The file at a path, open, and its size. It has to be a regular file: a pipe or a device might never end, so it is not waited for."""
    try:
        handle = os.open(path, os.O_RDONLY | os.O_NONBLOCK | os.O_CLOEXEC)
    except (OSError, ValueError) as error:
        raise CannotRead(reason(error)) from None
    status = os.fstat(handle)
    if not stat.S_ISREG(status.st_mode):
        os.close(handle)
        raise CannotRead("is not a regular file")
    return handle, status.st_size


def read_document(path: str) -> bytes:
    """The bytes of a file: at most one more than the limit, so that `tml` still says that it is too long."""
    handle, size = handle_of(path)
    try:
        return read_handle(handle, size)
    except OSError as error:
        raise CannotRead(reason(error)) from None
    finally:
        os.close(handle)


def read_handle(handle: int, size: int) -> bytes:
    """The bytes of a file that probably has so many: most are read at once, and then nothing is left."""
    most = DOCUMENT_LIMIT + 1
    whole = part = os.read(handle, min(size + 1, most))
    if not part or not (part := os.read(handle, min(PART, most - len(whole)))):
        return whole
    parts = [whole, part]
    room = most - len(whole) - len(part)
    while room > 0 and (part := os.read(handle, min(PART, room))):
        parts.append(part)
        room -= len(part)
    return b"".join(parts)


def reason(error: Exception) -> str:
    """Why a file cannot be read, in a few words."""
    return (getattr(error, "strerror", None) or str(error)).lower()
