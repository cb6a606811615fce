"""All files that are written: whole under another name first, so that none is left half written, and nothing beside it.

If a file is there already the new one has its rights, or it stays as it is.
"""

from __future__ import annotations

import errno
import os
import stat
from collections.abc import Iterator
from contextlib import contextmanager, suppress
from typing import NamedTuple

from tml.running import CannotRun

from .finding import read_handle, reason
from .writing import unbroken

ACCESS_LIST = "system.posix_acl_access"
PERMISSIONS = 0o777
"""What of a mode says who may read, write and run a file: set-user-ID, set-group-ID and sticky are none of it."""

FOLDER = os.O_RDONLY | os.O_DIRECTORY | os.O_CLOEXEC
NO_LINK = os.O_NOFOLLOW | os.O_CLOEXEC


def other_name() -> str:
    """A name for a file that is not yet whole. No search looks for it."""
    return f".tml-{os.urandom(8).hex()}"


class Rights(NamedTuple):
    """Who may do what with a file: its owner, its group, its POSIX access list as the system has it, if it has one, and its permissions."""

    owner: int
    group: int
    access_list: bytes | None
    permissions: int

    @classmethod
    def of(cls, handle: int) -> Rights:
        """Those of an open file."""
        status = os.fstat(handle)
        return cls(status.st_uid, status.st_gid, access_list_of(handle), stat.S_IMODE(status.st_mode) & PERMISSIONS)

    def give(self, handle: int) -> None:
        """Gives them to an open file, the permissions last, when it has its owner. Raises `OSError` where it cannot have all of them."""
        refused = ""
        try:
            if Rights.of(handle)[:2] != self[:2]:
                os.fchown(handle, self.owner, self.group)
            if self.access_list is not None:
                os.setxattr(handle, ACCESS_LIST, self.access_list)
            elif access_list_of(handle) is not None:
                os.removexattr(handle, ACCESS_LIST)
            os.fchmod(handle, self.permissions)
        except OSError as error:
            refused = f": {reason(error)}"
        if refused or Rights.of(handle) != self:
            raise PermissionError(errno.EPERM, f"its owner, group, access list and permissions cannot be kept{refused}")


def access_list_of(handle: int) -> bytes | None:
    """The POSIX access list of an open file; None where it has none, or where there are none here."""
    if not hasattr(os, "getxattr"):
        return None
    try:
        return os.getxattr(handle, ACCESS_LIST)
    except OSError as error:
        if error.errno in (errno.ENODATA, errno.ENOTSUP):
            return None
        raise


def replace_file(path: str, content: bytes, before: bytes | None = None, top: str = "") -> None:
    """Writes a file, with the rights of the one that it replaces, if there is one, or else those of the user's umask.

    If a content `before` is given the file has to be there with it until the last moment. Below `top`, a folder that was searched or
    in which names are chosen here, no link is followed to the file; without it the path was named by the user, and its links are followed.
    Raises `CannotRun`, and leaves the file as it is, if that or the rights cannot be had.
    """
    target = path if top else os.path.realpath(path)
    try:
        with opened_folder(target, top or os.path.dirname(target)) as folder, unbroken():
            put(folder, os.path.basename(target), content, before)
    except (OSError, ValueError) as error:
        raise CannotRun(f"{path} cannot be written: {reason(error)}") from None


def make_folder(path: str) -> None:
    """Makes a folder, with those above it, if it is not there."""
    try:
        os.makedirs(path, exist_ok=True)
    except (OSError, ValueError) as error:
        raise CannotRun(f"the folder {path} cannot be made: {reason(error)}") from None


@contextmanager
def opened_folder(path: str, top: str) -> Iterator[int]:
    """The folder of a file, open. Links are followed to the top of the search, and below it none."""
    begin = os.path.join(top, "")
    handle = os.open(begin, FOLDER)
    try:
        for name in filter(None, path.removeprefix(begin).split(os.sep)[:-1]):
            above, handle = handle, os.open(name, FOLDER | NO_LINK, dir_fd=handle)
            os.close(above)
        yield handle
    finally:
        os.close(handle)


def put(folder: int, name: str, content: bytes, before: bytes | None) -> None:
    """Writes a file of an open folder under another name, and gives it its own one at the end."""
    rights = rights_at(folder, name)
    temporary = other_name()
    handle = os.open(temporary, os.O_WRONLY | os.O_CREAT | os.O_EXCL | NO_LINK, 0o666 if rights is None else 0o600, dir_fd=folder)
    try:
        with os.fdopen(handle, "wb") as file:
            if rights is not None:
                rights.give(handle)
            file.write(content)
            if rights is not None:
                file.flush()
                os.fsync(handle)
        if before is not None and not is_still(folder, name, rights, before):
            raise CannotRun("the file was changed meanwhile")
        os.replace(temporary, name, src_dir_fd=folder, dst_dir_fd=folder)
    except BaseException:
        with suppress(OSError):
            os.unlink(temporary, dir_fd=folder)
        raise


@contextmanager
def opened_at(folder: int, name: str) -> Iterator[int]:
    """A regular file of an open folder, open."""
    try:
        handle = os.open(name, os.O_RDONLY | os.O_NONBLOCK | NO_LINK, dir_fd=folder)
    except OSError as error:
        raise OSError(error.errno, "is a symbolic link") if error.errno == errno.ELOOP else error from None
    try:
        if not stat.S_ISREG(os.fstat(handle).st_mode):
            raise OSError(errno.EINVAL, "is not a regular file")
        yield handle
    finally:
        os.close(handle)


def rights_at(folder: int, name: str) -> Rights | None:
    """The rights of a file of an open folder, or None where it is not there."""
    try:
        with opened_at(folder, name) as handle:
            return Rights.of(handle)
    except FileNotFoundError:
        return None


def is_still(folder: int, name: str, rights: Rights | None, content: bytes) -> bool:
    """Whether a file of an open folder has these rights and the content of a document that was read from it.

    To read it takes a moment, in which it may be saved. So the last look is at its number, its size and its times alone.
    """
    with opened_at(folder, name) as handle:
        status = os.fstat(handle)
        is_same = Rights.of(handle) == rights and read_handle(handle, status.st_size) == content
    return is_same and version(os.stat(name, dir_fd=folder, follow_symlinks=False)) == version(status)


def version(status: os.stat_result) -> tuple[int, ...]:
    """What changes where somebody writes to a file or puts another one in its place."""
    return status.st_dev, status.st_ino, status.st_size, status.st_mtime_ns, status.st_ctime_ns
