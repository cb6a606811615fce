"""Makes what people install of what `.ci/run` has built, in a new folder DIR:

- two wheels for pip, one with the programs, the library and the packages of Python, and one of Python alone;
- the packages tml-timeml, libtml and libtml-dev for Debian, and a tar file of the programs with their manual pages and completion;
- tml.html, tml.wasm, tml.mjs and tml.d.mts, if tools/web/build has made them;
- a tar file and a wheel for Linux on ARM, and a zip file for Windows, if tools/native/build has made what they have;
- NOTICES, with the licences of what is linked in; MANIFEST, which says what they were made from; and SHA256SUMS.

The same commit gives the same bytes: all files have the time of the commit. With --test it tries such a folder, in a new Debian 12
that `mmdebstrap` makes: whether each file installs there, answers, and is removed again; and whether the programs for ARM and for
Windows answer what the one for this machine answers, under `qemu-aarch64` and `wine64`. With --dist it replaces dist/, the last release
in the repository, by files of such a folder: those for people who have neither the kit nor Debian, with their own MANIFEST and SHA256SUMS.

Status 0 says that the files were written, and their paths were printed, or that they passed; 1 that they cannot be made, or did not
pass, with the reason on standard error; and 2 that the arguments are of no known form.

Example: .ci/run && tools/release /tmp/tml && tools/release --test /tmp/tml && tools/release --dist /tmp/tml
"""

from __future__ import annotations

import argparse
import shutil
import sys
import tempfile
from pathlib import Path

from building.linking import CannotMake, folder_of_kit, need_programs
from releasing.archive import tar_of
from releasing.browsers import NAMES, web_files, what_makes_them
from releasing.debian import debian_packages
from releasing.dist import DIST, files_of_dist
from releasing.emulated import try_natives
from releasing.manifest import manifest, sums
from releasing.natives import left_out, native_files
from releasing.notices import notices_of
from releasing.outputs import BINARIES, outputs
from releasing.source import source_of
from releasing.symbols import glibc_of
from releasing.trying import try_release
from releasing.wheels import wheels_of
from tml_corpus import VERSION

PROGRAMS = ("rt", "git", "readelf", "dpkg-deb")


def main(arguments: list[str]) -> int:
    """Makes a release, tries one or puts it into the repository, and answers the status."""
    options = parser().parse_args(arguments)
    try:
        if options.test:
            try_release(options.folder)
            try_natives(options.folder)
        elif options.dist:
            fill_dist(options.folder)
        else:
            release(options.folder, options.maintainer)
    except (CannotMake, OSError, ValueError) as problem:
        print(f"release: {problem}", file=sys.stderr)
        return 1
    return 0


def parser() -> argparse.ArgumentParser:
    """The arguments that are understood."""
    known = argparse.ArgumentParser(prog="release", description=__doc__, formatter_class=argparse.RawDescriptionHelpFormatter)
    known.add_argument("--version", action="version", version=f"%(prog)s {VERSION}")
    known.add_argument("folder", type=Path, metavar="DIR", help="the folder for the files, which must not exist before they are made")
    tasks = known.add_mutually_exclusive_group()
    tasks.add_argument("--test", action="store_true", help="try the files of this folder")
    tasks.add_argument("--dist", action="store_true", help="replace dist/ of this repository by files of this folder")
    known.add_argument(
        "--maintainer", metavar="TEXT", help="who maintains the packages, as `Name <address>` (default: the author of the last commit)"
    )
    return known


def release(folder: Path, maintainer: str | None) -> None:
    """Makes the folder with all files, and prints their paths and what was left out."""
    if folder.exists():
        raise CannotMake(f"{folder} exists: name a folder that does not")
    need_programs(PROGRAMS)
    files = files_of(maintainer)
    write(folder, files)
    for name in sorted(files):
        print(folder / name)
    if NAMES[0] not in files:
        print(f"release: without {', '.join(NAMES)}: {what_makes_them()} makes them", file=sys.stderr)
    if problem := left_out():
        print(f"release: {problem}", file=sys.stderr)


def fill_dist(folder: Path) -> None:
    """Replaces dist/ by files of a release, and prints their paths."""
    files = files_of_dist(folder)
    if DIST.exists():
        shutil.rmtree(DIST)
    write(DIST, files)
    for name in sorted(files):
        print(DIST / name)


def files_of(maintainer: str | None) -> dict[str, bytes]:
    """All files of a release, by their names."""
    built = outputs()
    source, glibc = source_of(maintainer), glibc_of(BINARIES)
    notices = notices_of(Path(folder_of_kit()), source.kit)
    files = {
        **wheels_of(source, built, notices, glibc),
        **debian_packages(source, built, notices, glibc),
        **tar_of(source, built, notices),
        **web_files(),
        **native_files(source, notices),
        "NOTICES": notices,
    }
    files["MANIFEST"] = manifest(source, glibc, files)
    return files | {"SHA256SUMS": sums(files)}


def write(folder: Path, files: dict[str, bytes]) -> None:
    """Makes a folder with these files, in one step: it is not there, even in part, if they cannot be written."""
    folder.parent.mkdir(parents=True, exist_ok=True)
    with tempfile.TemporaryDirectory(prefix=".release-", dir=folder.parent) as name:
        whole = Path(name, folder.name)
        whole.mkdir()
        whole.chmod(0o755)
        for path, content in ((whole / name, content) for name, content in files.items()):
            path.write_bytes(content)
            path.chmod(0o644)
        whole.rename(folder)
