"""The wheels, files that pip installs: one of Python alone, and one for each kind of processor, with programs and the library."""

from __future__ import annotations

import io
import stat
import time
import zipfile
from base64 import urlsafe_b64encode
from collections.abc import Mapping
from hashlib import sha256

from releasing.archive import File
from releasing.outputs import Outputs
from releasing.source import Source, modules, project, read, text_of

NAME = "tml_corpus"
NO_LICENCE = "none yet: ask the owner of the repository before you use it or pass it on"
SOURCES = "python/src/"


def wheels_of(source: Source, built: Outputs, notices: bytes, glibc: tuple[int, int]) -> dict[str, bytes]:
    """The wheel of Python alone and that for this machine, by their names."""
    programs, platform = {"tml": built.program, "tml-verify": built.checker}, "manylinux_{}_{}_x86_64".format(*glibc)
    own = with_programs(source, programs, built.shared)
    return {**wheel(source, notices, {}, "any"), **wheel(source, notices, own, platform)}


def with_programs(source: Source, programs: Mapping[str, bytes], shared: bytes) -> dict[str, File]:
    """What a wheel for a kind of processor has of its own: programs, of which Python finds `tml`, and the library."""
    scripts = f"{NAME}-{source.version}.data/scripts"
    of_python = {"tml/tml": File(programs["tml"], 0o755), "tml/libtml.so": File(shared)}
    return of_python | {f"{scripts}/{name}": File(content, 0o755) for name, content in programs.items()}


def wheel(source: Source, notices: bytes, own: Mapping[str, File], platform: str) -> dict[str, bytes]:
    """A wheel for a platform, by its name: the packages of Python, and what it has of its own."""
    tag, folder = f"py3-none-{platform}", f"{NAME}-{source.version}.dist-info"
    files = {name.removeprefix(SOURCES): File(read(name)) for name in modules()} | dict(own)
    about = {
        "METADATA": metadata(source.version).encode(),
        "NOTICES": notices,
        "WHEEL": wheel_fields(tag).encode(),
        "entry_points.txt": entry_points().encode(),
        "top_level.txt": b"tml\ntml_corpus\n",
    }
    # The metadata of a wheel comes last, so that pip finds it soon.
    tree = dict(sorted(files.items())) | {f"{folder}/{name}": File(content) for name, content in sorted(about.items())}
    record = "".join(f"{name},sha256={digest(file.content)},{len(file.content)}\n" for name, file in tree.items())
    tree[f"{folder}/RECORD"] = File(f"{record}{folder}/RECORD,,\n".encode())
    return {f"{NAME}-{source.version}-{tag}.whl": zipped(tree, source.time)}


def metadata(version: str) -> str:
    """What pip knows of the packages."""
    about = project()
    fields = [
        ("Metadata-Version", "2.1"),
        ("Name", about["name"]),
        ("Version", version),
        ("Summary", about["description"]),
        ("Keywords", ",".join(about["keywords"])),
        ("License", NO_LICENCE),
        *(("Classifier", classifier) for classifier in about["classifiers"]),
        ("Requires-Python", about["requires-python"]),
        ("Description-Content-Type", "text/markdown"),
    ]
    for extra, needed in about["optional-dependencies"].items():
        fields += [("Provides-Extra", extra), *(("Requires-Dist", f"{one} ; extra == '{extra}'") for one in needed)]
    return "".join(f"{name}: {value}\n" for name, value in fields) + f"\n{text_of(about['readme'])}"


def wheel_fields(tag: str) -> str:
    """What pip knows of the wheel itself."""
    is_pure = str(tag.endswith("-any")).lower()
    return f"Wheel-Version: 1.0\nGenerator: tools/release\nRoot-Is-Purelib: {is_pure}\nTag: {tag}\n"


def entry_points() -> str:
    """The commands that pip makes."""
    return "[console_scripts]\n" + "".join(f"{name} = {function}\n" for name, function in sorted(project()["scripts"].items()))


def digest(content: bytes) -> str:
    """A sum as the record of a wheel has it."""
    return urlsafe_b64encode(sha256(content).digest()).rstrip(b"=").decode()


def zipped(tree: dict[str, File], seconds: int) -> bytes:
    """A zip file of these files in their order, all of one time, in seconds from 1970, which is not before 1980."""
    written = io.BytesIO()
    moment = time.gmtime(seconds)
    date = (moment.tm_year, moment.tm_mon, moment.tm_mday, moment.tm_hour, moment.tm_min, moment.tm_sec)
    with zipfile.ZipFile(written, "w", zipfile.ZIP_DEFLATED) as archive:
        for name, file in tree.items():
            entry = zipfile.ZipInfo(name, date)
            entry.compress_type, entry.create_system = zipfile.ZIP_DEFLATED, 3
            entry.external_attr = (stat.S_IFREG | file.mode) << 16
            archive.writestr(entry, file.content)
    return written.getvalue()
