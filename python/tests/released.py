"""A release for the tests: made by `tools/release` of a copy of the repository, and what is in each of its files.

The copy has a stand-in for the kit, and the programs and libraries that were built, or a stand-in for each of them.
"""

from __future__ import annotations

import io
import json
import os
import shutil
import stat
import subprocess
import tarfile
import zipfile
from calendar import timegm
from collections.abc import Iterator
from pathlib import Path
from typing import NamedTuple

from corpus import LIBRARY, TESTS, TML, TOP, text_at
from processes import BARE, PATIENCE
from releasing.debian import LINKED

TML_VERIFY = os.path.abspath(os.environ.get("TML_VERIFY") or os.path.join(TOP, "crates/tml_verify/out/tml_verify"))
STATIC = os.path.join(os.path.dirname(LIBRARY), "libtml.a")
BUILT = {"tml/out/tml": TML, "tml_verify/out/tml_verify": TML_VERIFY, "tml_c/out/libtml.so": LIBRARY, "tml_c/out/libtml.a": STATIC}
"""The files that were built, by their names below `crates`."""

IS_BUILT = all(map(os.path.isfile, BUILT.values()))
MISSING = [name for name in ("cc", "git", "readelf", "dpkg-deb") if shutil.which(name) is None]
WEB = ("tml.html", "tml.wasm", "tml.mjs", "tml.d.mts")
NATIVE = {"tml-aarch64": b"for ARM\n", "tml.exe": b"for Windows\n"}
"""Stand-ins for the programs for other systems."""

TIME = 1795824000
"""When the copies were committed: 2026-11-28 at midnight."""

COMMIT = {
    **{f"GIT_{who}_NAME": "A Name" for who in ("AUTHOR", "COMMITTER")},
    **{f"GIT_{who}_EMAIL": "a@example.org" for who in ("AUTHOR", "COMMITTER")},
    **{f"GIT_{who}_DATE": f"{TIME} +0000" for who in ("AUTHOR", "COMMITTER")},
    "GIT_CONFIG_GLOBAL": os.devnull,
    "GIT_CONFIG_NOSYSTEM": "1",
}


class Entry(NamedTuple):
    """A file or a link in an archive: its content, what it leads to, its mode, its owner, and its time in seconds from 1970."""

    content: bytes = b""
    target: str = ""
    mode: int = 0o644
    owner: str = "root"
    time: int = TIME


def ran(*words: str | Path, **variables: str) -> bytes:
    """What a program prints; it has to end with status 0."""
    done = subprocess.run(words, capture_output=True, check=False, timeout=PATIENCE, env={**os.environ, **variables})
    if done.returncode != 0:
        raise AssertionError(f"{words}: {done.returncode}: {done.stderr.decode('utf-8', 'replace')}")
    return done.stdout


def compiled(path: Path, *options: str, answer: str = "") -> None:
    """Compiles a stand-in that gives an answer."""
    ran("cc", "-O1", f"-DANSWER={json.dumps(answer)}", os.path.join(TESTS, "release_stand_in.c"), "-o", path, *options)


def build(crates: Path) -> None:
    """Puts what was built into a folder `crates`, or a stand-in for each, and stand-ins for the files for browsers and other systems."""
    for name, path in BUILT.items():
        (crates / name).parent.mkdir(parents=True, exist_ok=True)
        if IS_BUILT:
            shutil.copyfile(path, crates / name)
    if not IS_BUILT:
        drill = "drill 1\nverified timeline\n"
        compiled(crates / "tml/out/tml", answer=drill)
        compiled(crates / "tml_verify/out/tml_verify", answer=text_at("crates/tml_verify/stdout"))
        compiled(crates / "tml_c/out/libtml.so", "-shared", "-fPIC", "-Wl,-soname,libtml.so.0", answer=drill)
        (crates / "tml_c/out/libtml.a").write_bytes(b"!<arch>\n")
    (crates / "tml_c/out/web").mkdir()
    for name in WEB:
        (crates / "tml_c/out/web" / name).write_text(f"{name}\n", encoding="utf-8")
    (crates / "tml_c/out/native").mkdir()
    for name, content in NATIVE.items():
        (crates / "tml_c/out/native" / name).write_bytes(content)
    shutil.copyfile(crates / "tml_c/out/libtml.so", crates / "tml_c/out/native/libtml-aarch64.so")


def kit_at(kit: Path) -> str:
    """Makes a kit with a licence for each of its crates but `std`, and answers its folder with programs."""
    crates = ("anyhow", "itoa", "jiff", "jiff_core", "memchr", "simdutf8")
    for crate in ("std", *crates):
        (kit / f"rlibs/{crate}.rlib/below" / ("jiff_tz" if crate == "jiff" else "std")).mkdir(parents=True)
    for crate in (*crates, "jiff_tz"):
        (kit / "rattle" / crate).mkdir(parents=True)
        (kit / "rattle" / crate / "LICENSE").write_text(f"The licence of {crate.split('_')[0]}\n", encoding="utf-8")
    (kit / "bin").mkdir()
    (kit / "bin/rt").write_text(f'#!/bin/sh\n[ "$1" = doc ] && echo {kit}/START-HERE.md || echo a kit for tests\n', encoding="utf-8")
    (kit / "bin/rt").chmod(0o755)
    return str(kit / "bin")


def copy_at(top: Path) -> None:
    """A copy of the repository, as far as it is read, with one commit."""
    ignored = shutil.ignore_patterns("__pycache__", "tests", "promises")
    for folder in ("python", "tools", "docs", "samples", "native", "web", "crates/tml_verify/data"):
        shutil.copytree(os.path.join(TOP, folder), top / folder, ignore=ignored)
    names = ("README.md", "CHANGELOG.md", "SECURITY.md", "pyproject.toml", "crates.txt", ".gitignore", "crates/tml_verify/stdout")
    for name in (*names, *LINKED):
        (top / name).parent.mkdir(parents=True, exist_ok=True)
        shutil.copyfile(os.path.join(TOP, name), top / name)
    build(top / "crates")
    for words in (("init", "-q"), ("add", "."), ("commit", "-q", "-m", "All")):
        ran("git", "-C", top, *words, **COMMIT)


def release(copy: Path, folder: Path, *options: str, umask: int = -1) -> subprocess.CompletedProcess[str]:
    """Runs `tools/release` of a copy, whose kit is that of its folder."""
    words, path = [*BARE, str(copy / "tools/release"), *options, str(folder)], f"{copy.parent}/kit/bin:{os.environ['PATH']}"
    variables = {**os.environ, **COMMIT, **compiled_below(copy.parent), "PATH": path}
    return subprocess.run(words, env=variables, capture_output=True, text=True, check=False, timeout=PATIENCE, umask=umask)


def compiled_below(folder: Path) -> dict[str, str]:
    """The variables by which modules that many processes import are compiled once: next to those of all tests, or else in a folder."""
    return {"PYTHONDONTWRITEBYTECODE": "", "PYTHONPYCACHEPREFIX": os.environ.get("PYTHONPYCACHEPREFIX", f"{folder}/bytecode")}


def entries(path: Path) -> dict[str, Entry]:
    """What is in a file of a release, without folders, by names. A file that is no archive has nothing."""
    if path.suffix in (".whl", ".zip"):
        return dict(of_zip(path))
    if path.suffix == ".deb":
        return dict(of_tar(ran("dpkg-deb", "--fsys-tarfile", path)))
    return dict(of_tar(path.read_bytes())) if path.suffix == ".gz" else {}


def of_zip(path: Path) -> Iterator[tuple[str, Entry]]:
    """The files of a wheel or a zip file, which has no owners."""
    with zipfile.ZipFile(path) as archive:
        for one in archive.infolist():
            yield one.filename, Entry(archive.read(one), "", stat.S_IMODE(one.external_attr >> 16), "root", timegm(one.date_time))


def of_tar(content: bytes) -> Iterator[tuple[str, Entry]]:
    """The files and links of a tar file."""
    with tarfile.open(fileobj=io.BytesIO(content)) as archive:
        for one in archive:
            file = archive.extractfile(one) if one.isfile() else None
            entry = Entry(file.read() if file else b"", one.linkname, one.mode, f"{one.uname}/{one.gname}", int(one.mtime))
            if not one.isdir():
                yield one.name.removeprefix("./"), entry
