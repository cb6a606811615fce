"""The tar files: programs with their manual pages and completion, in folders as below /usr/local."""

from __future__ import annotations

import gzip
import io
import tarfile
from collections.abc import Iterable, Mapping
from dataclasses import dataclass
from pathlib import PurePosixPath

from releasing.outputs import Outputs
from releasing.source import Source, read


@dataclass(frozen=True)
class File:
    """A file of an archive: its content and its mode."""

    content: bytes
    mode: int = 0o644


def tar_of(source: Source, built: Outputs, notices: bytes) -> dict[str, bytes]:
    """The tar file for this machine, by its name."""
    return tar_for("linux-x86_64", source, {"tml": built.program, "tml-verify": built.checker}, notices)


def tar_for(machine: str, source: Source, programs: Mapping[str, bytes], notices: bytes) -> dict[str, bytes]:
    """A tar file of programs for a machine, by its name. All of it lies in one folder."""
    name = f"tml-{source.version}"
    tree = {
        **{f"bin/{program}": File(content, 0o755) for program, content in programs.items()},
        **{f"share/man/man1/{program}.1": File(read(f"docs/{program}.1")) for program in programs},
        "share/bash-completion/completions/tml": File(read("tools/completion/tml.bash")),
        "share/doc/tml/NOTICES": File(notices),
    }
    files = {f"{name}/{path}": file for path, file in tree.items()}
    return {f"{name}-{machine}.tar.gz": compressed(packed(files, source.time))}


def packed(files: dict[str, File], time: int) -> bytes:
    """A tar file of root's with these files and the folders above them, in order, all of one time."""
    written = io.BytesIO()
    with tarfile.open(fileobj=written, mode="w", format=tarfile.USTAR_FORMAT) as archive:
        for name in sorted({*files, *folders(files)}):
            entry = tarfile.TarInfo(name)
            entry.mtime, entry.uname, entry.gname = time, "root", "root"
            file = files.get(name)
            if file is None:
                entry.type, entry.mode = tarfile.DIRTYPE, 0o755
                archive.addfile(entry)
            else:
                entry.size, entry.mode = len(file.content), file.mode
                archive.addfile(entry, io.BytesIO(file.content))
    return written.getvalue()


def folders(names: Iterable[str]) -> set[str]:
    """All folders in which something with these names lies."""
    return {str(folder) for name in names for folder in PurePosixPath(name).parents} - {"."}


def compressed(content: bytes) -> bytes:
    """As `gzip -9n` writes it: without a name and a time."""
    return gzip.compress(content, 9, mtime=0)
