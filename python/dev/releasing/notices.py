"""NOTICES: what others wrote that is linked into the programs, the library and the module, with its licences."""

from __future__ import annotations

from collections import defaultdict
from pathlib import Path

from building.crates import libraries_below, listed
from building.linking import CannotMake

LGPL = Path("/usr/share/common-licenses/LGPL-2.1")
MINGW = Path(__file__).resolve().parent / "templates/mingw-w64"
"""The licences of the libraries of C that are linked into the programs for other systems."""

HANDED_OUT = ("tml", "tml_verify", "tml_c")
"""The crates of what is handed out."""

RUNTIME = frozenset({"core", "libc", "os", "std", "std_alloc", "std_collections", "std_heap", "std_io"})
"""The crates of the kit's runtime, which the kit has without a licence."""

BEGINNING = """tml: what others wrote that is linked into its programs, its library and its module for browsers.

tml itself has no licence yet: ask the owner of the repository before you use it or pass it on.
"""

OF_THE_RUNTIME = """
== The runtime of the Rattle kit: {crates}

The kit ({kit}) has no licence of these crates, nor of the parts in C that go with them: ask whom you have the kit from.
"""

OF_THE_SYSTEM = """
== The C library and the compiler of the system

Programs and the shared library begin and end with files of the GNU C library (crti.o, crtn.o and, in programs, Scrt1.o) and of
GCC (crtbeginS.o, crtendS.o, libgcc). Their licences, the GNU Lesser General Public License 2.1 or later and the GNU General Public
License 3 with the GCC Runtime Library Exception, permit linking them with anything. The C library itself is the system's.

The program for Linux on ARM has the C library in it, as Debian's package libc6-dev-arm64-cross has it. Its licence is below, and
entitles you to what it takes to link the program with another version: ask the owner of the repository.
"""

OF_MINGW = """
== The runtime of MinGW-w64, which the program for Windows has in it

"""

OF_GLIBC = """
== The licence of the GNU C library

"""


def notices_of(kit: Path, version: str) -> bytes:
    """The notices of all that is linked, by the licences of a kit, which has this version. A crate without one is an error."""
    linked = linked_crates(kit)
    licences = {crate: licence_of(kit, crate) for crate in sorted(linked - RUNTIME)}
    unknown = [crate for crate, licence in licences.items() if licence is None]
    if unknown:
        raise CannotMake(f"no licence of {', '.join(unknown)}, which is linked: {kit}/rattle/{unknown[0]} has no file LICENSE")
    crates: defaultdict[str, list[str]] = defaultdict(list)
    for crate, licence in licences.items():
        crates[licence or ""].append(crate)
    texts = [f"\n== Crates of the Rattle kit: {', '.join(names)}\n\n{licence}\n" for licence, names in crates.items()]
    runtime = OF_THE_RUNTIME.format(crates=", ".join(sorted(linked & RUNTIME)), kit=version)
    if not LGPL.is_file():
        raise CannotMake(f"no {LGPL}, which Debian's package base-files has")
    libraries = [OF_MINGW, MINGW.read_text(encoding="utf-8"), OF_GLIBC, LGPL.read_text(encoding="utf-8")]
    return "".join([BEGINNING, *texts, runtime, OF_THE_SYSTEM, *libraries]).encode()


def linked_crates(kit: Path) -> set[str]:
    """The crates of the kit that are linked into what is handed out: those that our crates name, `std`, and what the kit built these of."""
    uses = dict(listed())
    ours = {library for crate in HANDED_OUT for library in (crate, *libraries_below(crate, uses))}
    named = {library for crate in ours for library in uses[crate]} - set(uses) | {"std"}
    return {below for crate in named for below in (crate, *below_in_kit(kit, crate))}


def below_in_kit(kit: Path, crate: str) -> list[str]:
    """The crates that a crate of the kit was built of, as its library lists them."""
    folder = kit / f"rlibs/{crate}.rlib/below"
    if not folder.is_dir():
        raise CannotMake(f"the kit does not say what {crate} was built of: there is no folder {folder}")
    return [path.name for path in folder.iterdir()]


def licence_of(kit: Path, crate: str) -> str | None:
    """The licences of a crate of the kit, one after the other; None if there is none."""
    paths = sorted((kit / "rattle" / crate).glob("LICENSE*"))
    return "\n\n".join(path.read_text(encoding="utf-8").rstrip().strip("\n") for path in paths) or None
