"""The files for Linux on ARM and for Windows, if tools/native/build has made what they have."""

from __future__ import annotations

from collections.abc import Sequence

from building.compiling import OUT
from building.native import ARM, EXECUTABLE, LIBRARY, PROGRAM, READ, SYSTEMS, WINDOWS, System, can_link
from releasing.archive import File, tar_for
from releasing.outputs import made_apart
from releasing.source import Source
from releasing.symbols import glibc_of
from releasing.wheels import wheel, with_programs, zipped

FOLDER = OUT / "native"
BUILD = "tools/native/build crates/tml_c/out/native"


def native_files(source: Source, notices: bytes) -> dict[str, bytes]:
    """All of them by their names: the tar file and the wheel for ARM, and the zip file for Windows, or those whose program was made."""
    arm, windows = built_for(ARM), built_for(WINDOWS)
    return {**(files_for_arm(source, arm, notices) if arm else {}), **(files_for_windows(source, windows, notices) if windows else {})}


def built_for(system: System) -> dict[str, bytes]:
    """What tools/native/build has made for a system; nothing if it is older than what it is made of."""
    return made_apart(FOLDER, system.products, READ)


def files_for_arm(source: Source, built: dict[str, bytes], notices: bytes) -> dict[str, bytes]:
    """The tar file of the program, and the wheel with program, library and the packages of Python."""
    programs, platform = {"tml": built[PROGRAM]}, "manylinux_{}_{}_aarch64".format(*glibc_of([FOLDER / LIBRARY]))
    own = with_programs(source, programs, built[LIBRARY])
    return {**tar_for("linux-aarch64", source, programs, notices), **wheel(source, notices, own, platform)}


def files_for_windows(source: Source, built: dict[str, bytes], notices: bytes) -> dict[str, bytes]:
    """The zip file of the program."""
    files = {EXECUTABLE: File(built[EXECUTABLE], 0o755), "NOTICES.txt": File(notices)}
    return {f"tml-{source.version}-windows-x86_64.zip": zipped(files, source.time)}


def left_out() -> str | None:
    """What is missing, with the command that makes it on this machine; None if all is there."""
    missing = [system for system in SYSTEMS if not built_for(system)]
    if not missing:
        return None
    return f"without {', '.join(name for system in missing for name in system.products)}: {what_makes(missing)} makes what they need"


def what_makes(systems: Sequence[System]) -> str:
    """The command that makes the files for some systems, on this machine."""
    packages = [package for system in systems if not can_link(system) for package in system.packages]
    return f"apt-get install {' '.join(packages)} && {BUILD}" if packages else BUILD
