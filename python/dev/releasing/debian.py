"""The packages for Debian: tml-timeml with the programs and the tools, and libtml and libtml-dev with the library for C.

The package tml-timeml conflicts with tml, since Debian has a package and a program of this name already. The programs are packed byte for
byte.
"""

from __future__ import annotations

import hashlib
import os
import re
import tempfile
from dataclasses import dataclass
from email.utils import format_datetime
from pathlib import Path

from building import page
from building.linking import SONAME, run
from releasing.archive import File, compressed, folders
from releasing.browsers import web_files
from releasing.outputs import Outputs
from releasing.source import Source, Version, modules, names_in, read

TEMPLATES = Path(__file__).resolve().parent / "templates"
NAME = "tml-timeml"
DOCS = f"usr/share/doc/{NAME}"
LIBRARY, DEV = "libtml", "libtml-dev"
FOLDER = "usr/lib/x86_64-linux-gnu"
SCRIPTS = {
    "tml-corpus": "tml-corpus",
    "redundant-links": "tml-redundant-links",
    "tml-edit": "tml-edit",
    "from-tempeval2": "tml-from-tempeval2",
    "html-entities": "tml-html-entities",
}
"""The scripts of tools/, and the names under which they are installed."""

LINKED = (
    "CONTRIBUTING.md", "bench/NOTES.md", "docs/promises.txt", "docs/tml-corpus.1", "python/NOTES.md", "python/dev/reference/README.md",
    "python/tests/memory_calls.md", "python/tests/mistakes.md", "tools/tml_checker.py",
)  # fmt: skip
"""The other files to which links of the documentation lead."""


@dataclass(frozen=True)
class Link:
    """A symbolic link of the package, and what it says."""

    target: str


Tree = dict[str, File | Link]
"""The files and links of a package by their names."""


def debian_packages(source: Source, built: Outputs, notices: bytes, glibc: tuple[int, int]) -> dict[str, bytes]:
    """The three packages, by their names."""
    depends = "libc6 (>= {}.{})".format(*glibc)
    trees = {
        NAME: program_package(source, built, notices, depends),
        LIBRARY: library_package(source, built, notices, depends),
        DEV: dev_package(source, built, notices),
    }
    return {f"{name}_{source.version}_amd64.deb": deb(tree, source.time) for name, tree in trees.items()}


def program_package(source: Source, built: Outputs, notices: bytes, depends: str) -> Tree:
    """The programs, the tools, manual pages and documentation."""
    programs: Tree = {
        "usr/bin/tml": File(built.program, 0o755),
        "usr/bin/tml-verify": File(built.checker, 0o755),
        f"usr/share/lintian/overrides/{NAME}": File(template("lintian-overrides")),
    }
    tree = {**programs, **script_files(), **manual_files(), **document_files(), **about(NAME, source, notices)}
    fields = {
        "Package": NAME,
        "Version": source.version,
        "Section": "text",
        "Priority": "optional",
        "Architecture": "amd64",
        "Maintainer": source.maintainer,
        "Depends": f"{depends}, python3 (>= 3.11)",
        "Recommends": f"{LIBRARY} (= {source.version})",
        "Suggests": "bash-completion, libxml2-utils, make, python3-distributed",
        "Conflicts": "tml",
        "Description": template("description").decode().strip(),
    }
    return {**tree, **control_of(tree, fields), "DEBIAN/prerm": File(template("prerm"), 0o755)}


def script_files() -> Tree:
    """The scripts, run by Debian's Python, and the packages that they import, in folders as in the repository; and the names by which the
    scripts are called. Debian's Python finds the package `tml` too."""
    tree: Tree = {}
    for name, called in SCRIPTS.items():
        text = read(f"tools/{name}").replace(b"#!/usr/bin/env python3\n", b"#!/usr/bin/python3\n", 1)
        tree[f"usr/share/{NAME}/tools/{name}"] = File(text, 0o755)
        tree[f"usr/bin/{called}"] = Link(f"../share/{NAME}/tools/{name}")
    tree |= {f"usr/share/{NAME}/{name}": File(read(name)) for name in modules()}
    tree["usr/lib/python3/dist-packages/tml"] = Link(f"../../../share/{NAME}/python/src/tml")
    tree["usr/share/bash-completion/completions/tml"] = File(read("tools/completion/tml.bash"))
    tree |= {f"usr/share/bash-completion/completions/{called}": Link("tml") for called in SCRIPTS.values()}
    return tree


def manual_files() -> Tree:
    """The manual pages. That of the tools is found by the name of each of them."""
    pages: Tree = {f"usr/share/man/man1/{os.path.basename(name)}.gz": File(compressed(read(name))) for name in names_in("docs", ".1")}
    for called in SCRIPTS.values():
        pages.setdefault(f"usr/share/man/man1/{called}.1.gz", Link("tml-tools.1.gz"))
    return pages


def document_files() -> Tree:
    """The documentation, in folders as in the repository, so that its links lead somewhere, and the page for browsers if it was made."""
    names = ["README.md", "CHANGELOG.md", "SECURITY.md", *names_in("docs", ".md"), *names_in("docs/schema"), *LINKED]
    names += [name for folder in ("samples", "samples/first", "samples/second") for name in names_in(folder)]
    tree: Tree = {f"{DOCS}/{name}": File(read(name)) for name in names}
    return tree | {f"{DOCS}/dist/{name}": File(content) for name, content in web_files().items() if name == page.NAME}


def library_package(source: Source, built: Outputs, notices: bytes, depends: str) -> Tree:
    """The shared library, for programs that were linked with it, and for Python."""
    tree: Tree = {
        f"{FOLDER}/{LIBRARY}.so.{source.version}": File(built.shared),
        f"{FOLDER}/{SONAME}": Link(f"{LIBRARY}.so.{source.version}"),
        f"usr/share/lintian/overrides/{LIBRARY}": File(template("library-overrides")),
        **about(LIBRARY, source, notices),
    }
    tree |= control_of(tree, library_fields(LIBRARY, "libs", source, depends))
    tree["DEBIAN/shlibs"] = File(f"{LIBRARY} 0 {LIBRARY} (>= {source.version})\n".encode())
    tree["DEBIAN/triggers"] = File(b"activate-noawait ldconfig\n")
    return tree


def dev_package(source: Source, built: Outputs, notices: bytes) -> Tree:
    """What programs are linked with the library by."""
    tree: Tree = {
        "usr/include/tml.h": File(read("tools/library/tml.h")),
        f"{FOLDER}/{LIBRARY}.a": File(built.static),
        f"{FOLDER}/{LIBRARY}.so": Link(SONAME),
        f"{FOLDER}/pkgconfig/{LIBRARY}.pc": File(template("libtml.pc", VERSION=source.version, FOLDER=FOLDER)),
        f"usr/share/doc/{DEV}/LIBRARY.md": File(re.sub(rb"\]\((?=\w+\.md)", f"](../{NAME}/docs/".encode(), read("docs/LIBRARY.md"))),
        **about(DEV, source, notices),
    }
    return tree | control_of(tree, library_fields(DEV, "libdevel", source, f"{LIBRARY} (= {source.version})"))


def library_fields(package: str, section: str, source: Source, depends: str) -> dict[str, str]:
    """The fields of a package of the library."""
    return {
        "Package": package,
        "Version": source.version,
        "Section": section,
        "Priority": "optional",
        "Architecture": "amd64",
        "Maintainer": source.maintainer,
        "Multi-Arch": "same",
        "Depends": depends,
        "Description": template("library-description").decode().strip(),
    }


def about(package: str, source: Source, notices: bytes) -> Tree:
    """The licences and the changes of a package."""
    changes = "\n".join(change(package, version, source.maintainer) for version in source.versions)
    files = {"copyright": template("copyright"), "NOTICES": notices, "changelog.gz": compressed(changes.encode())}
    return {f"usr/share/doc/{package}/{name}": File(content) for name, content in files.items()}


def change(package: str, version: Version, maintainer: str) -> str:
    """A version in the form of a changelog of Debian."""
    head = f"{package} ({version.name}) unstable; urgency=medium\n\n  * CHANGELOG.md says what is new in this version.\n\n"
    return f"{head} -- {maintainer}  {format_datetime(version.date)}\n"


def template(name: str, **values: str) -> bytes:
    """A file of the templates, with values in the place of the names between two `@`."""
    text = (TEMPLATES / name).read_text(encoding="utf-8")
    return re.sub("@([A-Z]+)@", lambda found: values[found[1]], text).encode()


def control_of(tree: Tree, fields: dict[str, str]) -> Tree:
    """The fields of a package, with its description as the last one, and the sums of its files."""
    files = {name: one.content for name, one in tree.items() if isinstance(one, File)}
    md5 = "".join(f"{hashlib.md5(content).hexdigest()}  {name}\n" for name, content in sorted(files.items()))
    size = sum(-(-len(content) // 1024) for content in files.values()) + len(tree) - len(files) + len(folders(tree))
    *others, description = fields.items()
    control = "".join(f"{name}: {value}\n" for name, value in (*others, ("Installed-Size", size), description))
    return {"DEBIAN/control": File(control.encode()), "DEBIAN/md5sums": File(md5.encode())}


def deb(tree: Tree, time: int) -> bytes:
    """The package of these files, all of one time, in seconds from 1970."""
    with tempfile.TemporaryDirectory() as folder:
        root, package = Path(folder, "root"), Path(folder, "package.deb")
        root.mkdir()
        write_tree(root, tree)
        set_times(root, time)
        run(["dpkg-deb", "--build", "--root-owner-group", "-Zxz", "-z3", str(root), str(package)], SOURCE_DATE_EPOCH=str(time))
        return package.read_bytes()


def write_tree(root: Path, tree: Tree) -> None:
    """Writes files and links below a folder. Modes do not depend on the mask of the user."""
    for folder in ("", *sorted(folders(tree))):
        (root / folder).mkdir(exist_ok=True)
        (root / folder).chmod(0o755)
    for name, one in tree.items():
        path = root / name
        if isinstance(one, Link):
            path.symlink_to(one.target)
        else:
            path.write_bytes(one.content)
            path.chmod(one.mode)


def set_times(root: Path, time: int) -> None:
    """Gives one time to everything below a folder."""
    for path in (root, *root.rglob("*")):
        os.utime(path, (time, time), follow_symlinks=False)
