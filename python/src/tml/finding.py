"""Who answers: the program and the library that are named, those next to the modules, those built here, or those of the system."""

from __future__ import annotations

import os
from functools import cache
from typing import TYPE_CHECKING, NamedTuple, Protocol

from .running import CannotRun

if TYPE_CHECKING:
    from .library import Library

HERE = os.path.dirname(os.path.realpath(__file__))
IS_PACKED = os.path.isfile(os.path.join(HERE, "tml"))
BUILT = ("tml", "libtml.so") if IS_PACKED else ("../../../crates/tml/out/tml", "../../../crates/tml_c/out/libtml.so")
BUILT_PROGRAM, BUILT_LIBRARY = (os.path.normpath(os.path.join(HERE, name)) for name in BUILT)
"""What a wheel has put next to these modules, or else what is built in this repository."""

SYSTEM_LIBRARY = "libtml.so.0"
"""The name by which the loader of the system finds the library, where it is installed."""

LIBRARY_VARIABLE, PROGRAM_VARIABLE = "TML_LIBRARY", "TML"
"""The variables of the environment that name a library and a program."""


class Loadable(Protocol):
    """A library that is not loaded yet. It goes to the workers of a cluster as it is."""

    def load(self) -> Library | None:
        """It, loaded into this process; None if the program is to be asked instead."""


class AtPath(NamedTuple):
    """The library that lies at a path, or that the loader of the system finds by its name. One that was named has to be there.

    It is loaded after the process that asks it was forked, and never called by the program that forks: docs/LIBRARY.md says why.
    """

    path: str
    is_named: bool = False

    def load(self) -> Library | None:
        try:
            return library_at(self.path)
        except CannotRun:
            if self.is_named:
                raise
            return None


@cache
def library_at(path: str) -> Library:
    """The library at a path, which a process loads once."""
    from .library import Library

    return Library(path)


class Answering(NamedTuple):
    """Who answers: a program if there is one, the library that is asked instead if there is one, and whether the program was named."""

    program: str | None
    library: AtPath | None = None
    is_named: bool = False

    def needed(self) -> str:
        """The program, which has to be there."""
        if self.program is None:
            raise CannotRun("no program tml: build it as README.md says, or choose one by --tml PROGRAM")
        return self.program


def find(program: str | None = None, library: str | None = None, named_by: str = "--tml", *, is_here: bool = True) -> Answering:
    """Who answers: the first of what the arguments name, what the variables `TML_LIBRARY` and `TML` name, what a wheel has put next to
    these modules, what is built in this repository, the library of the system, and `tml` on the PATH. docs/PYTHON.md has the details.

    A program that was named has to run, unless it is to run elsewhere. An empty library is none.
    """
    if program is None:
        program, named_by = os.environ.get(PROGRAM_VARIABLE) or None, "the variable TML"
        library = os.environ.get(LIBRARY_VARIABLE) if library is None else library
    if program is None:
        found = on_path(BUILT_PROGRAM) or on_path("tml")
    else:
        found = on_path(program) if is_here else program
        if found is None:
            raise CannotRun(f"no program {program}, which {named_by} names")
    if library is None:
        return Answering(found, library_beside() if program is None else None, program is not None)
    path = os.path.abspath(library) if os.path.isfile(library) else library
    return Answering(found, AtPath(path, is_named=True) if library else None, program is not None)


def on_path(name: str) -> str | None:
    """The path of the program that a name means: the name itself if it has a folder, else what PATH has."""
    if os.path.dirname(name):
        return os.path.abspath(name) if os.access(name, os.X_OK) and not os.path.isdir(name) else None
    import shutil

    found = shutil.which(name)
    return found and os.path.abspath(found)


def library_beside() -> AtPath | None:
    """The library if nothing was named: that of a wheel, or one built here if the program is no newer; else the system's."""
    is_built = os.access(BUILT_PROGRAM, os.X_OK)
    if os.path.isfile(BUILT_LIBRARY) and (IS_PACKED or not is_built or os.path.getmtime(BUILT_LIBRARY) >= os.path.getmtime(BUILT_PROGRAM)):
        return AtPath(BUILT_LIBRARY)
    return None if is_built else AtPath(SYSTEM_LIBRARY)
