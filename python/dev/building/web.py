"""Makes tml for browsers and for Node: DIR/tml.wasm, DIR/tml.mjs and DIR/tml.d.mts, and DIR/tml.html, a page that works from the disk.

The module is what the proof's own build of the crate tml_c hands to its compiler, compiled once more by the compiler of the kit: for
WebAssembly, with the heap, the memory and the shuffle of web/. It asks its host for nothing. The crate is proved and compiled before, as
tools/library/build does it, unless that has been done since it was changed. `rt`, and `wasm-opt` of Binaryen are needed.

Status 0 says that the files were written, and their paths were printed; 1 that they cannot be made, with the reason on standard error;
and 2 that the words are of no known form. The same crates give the same bytes.

Example: rt ci && tools/web/build /tmp/web && node /tmp/web/tml.mjs check samples/port.xml
"""

from __future__ import annotations

import argparse
import re
import sys
import tempfile
from collections.abc import Iterable, Iterator, Sequence
from pathlib import Path

from building.compiling import TOP, module_of
from building.library import written
from building.linking import CannotMake, folder_of_kit, need_programs, run
from building.page import NAME, page_of
from building.retargeting import PROCESSOR, SHUFFLE, SOUND, TARGET, TML_SHUFFLE, compiler_of, rewritten, text_of
from tml_corpus import VERSION

SOURCES = TOP / "web"
HANDED_OUT = ("tml.mjs", "tml.d.mts")
PARTS = ("heap", "memory", "shuffle")
PROGRAMS = ("rt", "wasm-opt")
FEATURES = ("bulk-memory", "mutable-globals", "nontrapping-fptoint", "sign-ext", "simd128")
"""What the module needs of a browser beyond the first WebAssembly."""
OF_BINARYEN = {"nontrapping-fptoint": "nontrapping-float-to-int", "simd128": "simd"}
"""Other names of them."""
EXPORTS = ("tml_answer", "tml_most_of_document", "tml_most_of_evidence", "room", "forget", "__stack_pointer")
STACK = 4 << 20
"""How many bytes of memory the stack has. Past its end is no memory, since it comes first."""
LEFT_OUT = re.compile(r" *\(v128\.(?:load\d+_(?:splat|zero|lane)|load\d+x\d+_[su]|store\d+_lane)\b")
"""The vectors whose addresses `wasm-opt --memory64-lowering` leaves out."""


def main(words: list[str]) -> int:
    """Makes the files and answers the status."""
    parser = argparse.ArgumentParser(prog="build", description=__doc__, formatter_class=argparse.RawDescriptionHelpFormatter)
    parser.add_argument("--version", action="version", version=f"%(prog)s {VERSION}")
    parser.add_argument("folder", type=Path, metavar="DIR", help="the folder for the files, which is made if it is not there")
    folder = parser.parse_args(words).folder
    try:
        need_programs(PROGRAMS)
        kit = folder_of_kit()
        module = made(kit, module_of(kit))
        contents = {"tml.wasm": module, **{name: (SOURCES / name).read_bytes() for name in HANDED_OUT}, NAME: page_of(module)}
        folder.mkdir(parents=True, exist_ok=True)
        for name, content in contents.items():
            print(written(folder / name, content))
    except (CannotMake, OSError) as problem:
        print(f"build: {problem}", file=sys.stderr)
        return 1
    return 0


def made(kit: str, module: Path) -> bytes:
    """The module for browsers."""
    clang = compiler_of(kit)
    with tempfile.TemporaryDirectory(prefix="web-") as name:
        folder = Path(name)
        (folder / "proved.ll").write_text(for_wasm(text_of(clang, module, folder)), encoding="utf-8")
        return lowered(linked(clang, folder, [folder / "proved.ll", *(SOURCES / f"{part}.c" for part in PARTS)]))


def for_wasm(text: str) -> str:
    """The text of the module for another processor, on which all data lie as they did: pointers have 64 bits on both."""
    features = ",".join(f"+{name}" for name in FEATURES)
    return rewritten(text, {TARGET: "", PROCESSOR: f'"target-features"="{features}"', SHUFFLE: TML_SHUFFLE})


def linked(clang: str, folder: Path, sources: Sequence[Path], exports: Sequence[str] = EXPORTS) -> Path:
    """A module with addresses of 64 bits of these sources, which lack nothing."""
    objects = [folder / f"{source.stem}.o" for source in sources]
    flags = [
        "--target=wasm64-unknown-unknown",
        "-mcpu=mvp",
        *(f"-m{name}" for name in FEATURES),
        *SOUND,
        "-O3",
        "-Werror",
    ]
    for source, made_of_it in zip(sources, objects, strict=True):
        words = ["-x", "ir", "-Wno-override-module"] if source.suffix == ".ll" else ["-std=c17", "-ffreestanding", "-nostdinc", "-Wall"]
        run([clang, *flags, *words, "-c", str(source), "-o", str(made_of_it)])
    linker, made_of_all = folder / "wasm-ld", folder / "wide.wasm"
    linker.symlink_to(clang)
    words = ["-mwasm64", "--no-entry", "--stack-first", "-z", f"stack-size={STACK}", "--gc-sections", "--strip-all"]
    run([str(linker), *words, *(f"--export={name}" for name in exports), *map(str, objects), "-o", str(made_of_all)])
    return made_of_all


def lowered(wide: Path) -> bytes:
    """The module with addresses of 32 bits, which all browsers have. Binaryen checks that no other one is left."""
    text, made_of_it = wide.with_suffix(".wat"), wide.with_name("tml.wasm")
    features = [f"--enable-{OF_BINARYEN.get(name, name)}" for name in FEATURES]
    run(["wasm-opt", *features, "--enable-memory64", "--no-validation", "--memory64-lowering", "-S", str(wide), "-o", str(text)])
    text.write_text("\n".join(of_vectors(text.read_text(encoding="utf-8").splitlines())), encoding="utf-8")
    run(["wasm-opt", *features, str(text), "-o", str(made_of_it)])
    return made_of_it.read_bytes()


def of_vectors(lines: Iterable[str]) -> Iterator[str]:
    """The lines of a module in which the addresses of all vectors have 32 bits too: Binaryen 108 leaves some of them as they are.

    Each operand begins on a line of its own, indented by one more than its instruction, and ends there, or on the next line that has the
    same indentation.
    """
    opened: list[int] = []
    is_address = False
    for line in lines:
        indented = len(line) - len(line.lstrip(" "))
        if is_address and not line.startswith("(i32.wrap_i64", indented):
            yield "(i32.wrap_i64"
            opened.append(indented)
        yield line
        if opened and opened[-1] == indented and (line.count("(") == line.count(")") or line.strip() == ")"):
            yield ")"
            opened.pop()
        is_address = LEFT_OUT.match(line) is not None
