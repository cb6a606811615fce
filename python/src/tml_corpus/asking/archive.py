"""The tools as they go to the workers of a cluster: this package and the package `tml` in a zip file, with the library beside them.

Both packages have names there with a digest of all that is in it, so that a worker which serves several versions mixes none of them up.
"""

from __future__ import annotations

import hashlib
import io
import os
import pkgutil
import re
import zipfile
from functools import cache
from pathlib import Path
from typing import NamedTuple

from tml import running
from tml.finding import AtPath, Loadable
from tml.library import Library
from tml.running import CannotRun

from ..files.finding import reason
from ..files.replacing import replace_file
from ..files.writing import folder_for_a_while
from .batch import FAMILY, SHARED

LIBRARY = "libtml.so"
"""The name of the library beside this package."""

IMPORTED = re.compile(rb"^([ \t]*from )%s(?=[. ])" % SHARED.encode(), re.MULTILINE)
"""How a line begins that imports something of the package `tml`."""


class Sent(NamedTuple):
    """The library that went with the tools. A worker that cannot load it starts the program."""

    package: str
    digest: str

    def load(self) -> Library | None:
        return library_in(self.package, self.digest)


@cache
def library_in(package: str, digest: str) -> Library | None:
    """The library that lies in a package, which a process loads once: the loader of the system takes it from a file, which is gone then."""
    content = pkgutil.get_data(package, LIBRARY)
    if content is None or hashlib.sha256(content).hexdigest() != digest:
        return None
    try:
        with folder_for_a_while() as folder:
            path = os.path.join(folder, LIBRARY)
            replace_file(path, content)
            return Library(path)
    except (OSError, CannotRun):
        return None


def archive(folder: str, library: AtPath | None) -> tuple[str, str, Loadable | None]:
    """A zip file with the tools, the name that this package has there, and the library as the workers load it.

    A library that is not a file here is left to the loaders of the workers.
    """
    content = content_of(library)
    sources = sources_of(FAMILY, Path(__file__).parents[1]) | sources_of(SHARED, Path(running.__file__).parent)
    digest = hashlib.sha256(repr((sources, content)).encode()).hexdigest()[:16]
    package, path = f"{FAMILY}_{digest}", os.path.join(folder, f"{FAMILY}_{digest}.zip")
    packed = io.BytesIO()
    with zipfile.ZipFile(packed, "w") as file:
        for (family, name), source in sources.items():
            renamed = IMPORTED.sub(rb"\1%s_%s" % (SHARED.encode(), digest.encode()), source)
            file.writestr(zipfile.ZipInfo(f"{family}_{digest}/{name}"), renamed, zipfile.ZIP_DEFLATED)
        if content is not None:
            file.writestr(zipfile.ZipInfo(f"{package}/{LIBRARY}"), content, zipfile.ZIP_DEFLATED)
    replace_file(path, packed.getvalue())
    if content is not None:
        return path, package, Sent(package, hashlib.sha256(content).hexdigest())
    return path, package, AtPath(library.path) if library is not None else None


def sources_of(family: str, folder: Path) -> dict[tuple[str, str], bytes]:
    """The modules of a package by its name and theirs, which have the folders of their packages."""
    return {(family, path.relative_to(folder).as_posix()): path.read_bytes() for path in sorted(folder.rglob("*.py"))}


def content_of(library: AtPath | None) -> bytes | None:
    """The bytes of a library, where it is a file."""
    if library is None or os.sep not in library.path:
        return None
    try:
        return Path(library.path).read_bytes()
    except OSError as error:
        if library.is_named:
            raise CannotRun(f"the library {library.path} cannot be read: {reason(error)}") from None
        return None
