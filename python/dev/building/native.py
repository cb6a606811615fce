"""Makes tml for Linux on ARM and for Windows on x86-64: DIR/tml-aarch64 and DIR/libtml-aarch64.so, and DIR/tml.exe.

All are made of the module that the proof's own build of the crate tml_c hands to its compiler, compiled once more by the compiler of the
kit, and of the heap and the program in C of native/. Cross compilers of Debian link them; tml-aarch64 and tml.exe need no library but
those of every system. The crate is proved and compiled before, as tools/library/build does it, unless that has been done since it was
changed.

Status 0 says that the files were written, and their paths were printed. If the cross compiler of one system is missing, those of the
other are made, and standard error has the command that installs what is missing. Status 1 says that none can be made, with the reason on
standard error; and 2 that the arguments are of no known form. The same crates and cross compilers give the same bytes.

Example: rt ci && tools/native/build /tmp/native && qemu-aarch64 /tmp/native/tml-aarch64 check samples/port.xml
"""

from __future__ import annotations

import argparse
import os
import re
import shutil
import sys
import tempfile
from collections.abc import Mapping, Sequence
from dataclasses import dataclass, field
from pathlib import Path

from building.compiling import TOP, module_of
from building.library import written
from building.linking import SHARED, VERSIONS, CannotMake, folder_of_kit, need_programs, run
from building.retargeting import PROCESSOR, SHUFFLE, SOUND, TARGET, TML_SHUFFLE, TRIPLE, compiler_of, rewritten, text_of
from tml_corpus import VERSION

SOURCES = TOP / "native"
HEADERS = TOP / "tools/library"
PROVED, HEAP, SHUFFLED, MAIN = "proved", "heap", "shuffle", "main"
"""The parts that are linked: the module, the heap, the function for an instruction of x86-64, and the program."""

IN_C = {HEAP: SOURCES / "heap.c", SHUFFLED: TOP / "web/shuffle.c", MAIN: SOURCES / "main.c"}
READ = (*IN_C.values(), TOP / "web/heap.h", HEADERS / "tml.h", Path(VERSIONS))
"""The files that are read besides the module."""

IN_TEXT = (PROVED, HEAP)
"""The parts that the compiler of the kit compiles, as text of LLVM. The heap is among them, since C for Windows returns its answers in
another way than the module wants them."""

PROGRAM, LIBRARY, EXECUTABLE = "tml-aarch64", "libtml-aarch64.so", "tml.exe"


@dataclass(frozen=True)
class Product:
    """A file that is made: its parts, how they are linked, and its mode."""

    parts: tuple[str, ...]
    flags: tuple[str, ...]
    mode: int = 0o755


@dataclass(frozen=True)
class System:
    """A system that files are made for.

    `triple` is its name for the compiler of the kit, `compiler` the cross compiler, which links if it finds the library `needed`, and
    `packages` has both. `changes` and the attributes `ignored` are what of the text of the module means something else there.
    """

    triple: str
    compiler: str
    needed: str
    packages: tuple[str, ...]
    ignored: tuple[str, ...]
    products: Mapping[str, Product]
    changes: Mapping[str, str] = field(default_factory=dict)
    flags: tuple[str, ...] = ()


ARM = System(
    triple="aarch64-unknown-linux-gnu",
    compiler="aarch64-linux-gnu-gcc",
    needed="libc.a",
    packages=("gcc-aarch64-linux-gnu", "libc6-dev-arm64-cross"),
    ignored=("target-cpu", "target-features", "tune-cpu"),
    products={
        PROGRAM: Product((PROVED, HEAP, SHUFFLED, MAIN), ("-static", "-Wl,-z,relro,-z,now,-z,noexecstack,--build-id=none")),
        LIBRARY: Product((PROVED, HEAP, SHUFFLED), SHARED, mode=0o644),
    },
    changes={PROCESSOR: "", SHUFFLE: TML_SHUFFLE},
    flags=("-fPIC",),
)
WINDOWS = System(
    triple="x86_64-pc-windows-gnu",
    compiler="x86_64-w64-mingw32-gcc-posix",
    needed="libmingw32.a",
    packages=("gcc-mingw-w64-x86-64-posix",),
    # In their place the stack is probed by the function of MinGW.
    ignored=("probe-stack", "stack-probe-size"),
    products={EXECUTABLE: Product((PROVED, HEAP, MAIN), ("-static", "-municode", "-Wl,--no-insert-timestamp"))},
)
SYSTEMS = (ARM, WINDOWS)


def main(arguments: list[str]) -> int:
    """Makes the files and answers the status."""
    parser = argparse.ArgumentParser(prog="build", description=__doc__, formatter_class=argparse.RawDescriptionHelpFormatter)
    parser.add_argument("--version", action="version", version=f"%(prog)s {VERSION}")
    parser.add_argument("folder", type=Path, metavar="DIR", help="the folder for the files, which is made if it is not there")
    folder = parser.parse_args(arguments).folder
    missing = [system for system in SYSTEMS if not can_link(system)]
    try:
        need_programs(("rt",))
        if missing == list(SYSTEMS):
            raise CannotMake(what_installs(missing))
        kit = folder_of_kit()
        contents = made(kit, module_of(kit), [system for system in SYSTEMS if system not in missing])
        folder.mkdir(parents=True, exist_ok=True)
        for name, content in contents.items():
            print(written(folder / name, content))
            (folder / name).chmod(mode_of(name))
    except (CannotMake, OSError) as problem:
        print(f"build: {problem}", file=sys.stderr)
        return 1
    if missing:
        print(f"build: {what_installs(missing)}", file=sys.stderr)
    return 0


def can_link(system: System) -> bool:
    """Whether the cross compiler of a system is there, with the libraries of C that it needs."""
    return shutil.which(system.compiler) is not None and os.path.isabs(run([system.compiler, f"-print-file-name={system.needed}"]))


def what_installs(missing: Sequence[System]) -> str:
    """What cannot be made, and the command that installs what it takes."""
    names = ", ".join(name for system in missing for name in system.products)
    packages = " ".join(package for system in missing for package in system.packages)
    return f"without {names}: `apt-get install {packages}` installs what they need"


def mode_of(name: str) -> int:
    """The mode of a file that is made."""
    return next(system.products[name].mode for system in SYSTEMS if name in system.products)


def made(kit: str, module: Path, systems: Sequence[System]) -> dict[str, bytes]:
    """The files for some systems, by their names."""
    clang = compiler_of(kit)
    with tempfile.TemporaryDirectory(prefix="native-") as name:
        folder = Path(name)
        texts = {PROVED: text_of(clang, module, folder), HEAP: text_of_heap(clang, folder)}
        return {name: content for system in systems for name, content in made_for(system, clang, texts, folder).items()}


def text_of_heap(clang: str, folder: Path) -> str:
    """The heap as text for the system that the module is made for, so that both agree on how a function is called."""
    text = folder / "heap.ll"
    flags = [f"--target={TRIPLE}", "-std=c17", "-O2", "-ffreestanding", "-nostdinc", "-Wall", "-Wextra", "-Werror"]
    run([clang, *flags, "-S", "-emit-llvm", str(IN_C[HEAP]), "-o", str(text)])
    return text.read_text(encoding="utf-8")


def made_for(system: System, clang: str, texts: Mapping[str, str], folder: Path) -> dict[str, bytes]:
    """The files for a system, by their names."""
    place = folder / system.triple
    place.mkdir()
    changes: dict[str, Mapping[str, str]] = {PROVED: {TARGET: "", **system.changes}, HEAP: {TARGET: ""}}
    for part in IN_TEXT:
        text = without(system.ignored, rewritten(texts[part], changes[part]))
        (place / f"{part}.ll").write_text(text, encoding="utf-8")
    for part in dict.fromkeys(part for product in system.products.values() for part in product.parts):
        compiled(system, clang, part, place)
    return {name: linked(system, product, place / name) for name, product in system.products.items()}


def without(names: Sequence[str], text: str) -> str:
    """The text without some attributes of functions."""
    return re.sub(rf' ?"(?:{"|".join(names)})"="[^"]*"', "", text)


def compiled(system: System, clang: str, part: str, place: Path) -> None:
    """Compiles a part in the folder of a system."""
    if part in IN_TEXT:
        words = [clang, f"--target={system.triple}", *SOUND, "-O3", "-Werror", "-Wno-override-module", "-x", "ir"]
        source = place / f"{part}.ll"
    else:
        words = [system.compiler, "-std=gnu17", "-O2", "-Wall", "-Wextra", "-Werror", "-I", str(HEADERS)]
        source = IN_C[part]
    run([*words, *system.flags, "-c", str(source), "-o", str(place / f"{part}.o")])


def linked(system: System, product: Product, path: Path) -> bytes:
    """Links a file. Without symbols it does not say where its sources lie."""
    run([system.compiler, "-s", *product.flags, *(str(path.with_name(f"{part}.o")) for part in product.parts), "-o", str(path)])
    return path.read_bytes()
