"""What dist/ has: those files of the last release that people need who have nothing but the repository, with a manifest and sums."""

from __future__ import annotations

from pathlib import Path

from building.compiling import TOP
from building.linking import CannotMake
from releasing.manifest import CLEAN, NAME, SUMS, need_whole, sums, with_sizes

DIST = TOP / "dist"
MOST = 5_000_000
"""The most bytes of all its files together: the history of the repository keeps them for ever."""

NEEDED = ("*-manylinux_*_x86_64.whl", "*-linux-x86_64.tar.gz", "tml.html", "NOTICES")
"""Which files it always has. It has no wheel of Python alone, which pip would take on a system for which there is no other wheel."""

IF_MADE = ("*aarch64*", "*-windows-*.zip")
"""Which files it has if the release has them: those for ARM and for Windows."""


def files_of_dist(release: Path) -> dict[str, bytes]:
    """The files that dist/ gets of a release, by their names. A release that is not whole, or of no commit, is an error."""
    need_whole(release)
    head = (release / NAME).read_text(encoding="utf-8").partition("\n\n")[0]
    if CLEAN not in head.splitlines():
        raise CannotMake(f"{release} was made of files that were not committed")
    missing = [pattern for pattern in NEEDED if not any(release.glob(pattern))]
    if missing:
        raise CannotMake(f"{release} has no {', '.join(missing)}")
    paths = {path for pattern in (*NEEDED, *IF_MADE) for path in release.glob(pattern)}
    files = {path.name: path.read_bytes() for path in paths}
    files[NAME] = with_sizes(head, files)
    files[SUMS] = sums(files)
    size = sum(map(len, files.values()))
    if size > MOST:
        raise CannotMake(f"the files for dist/ have {size:,} bytes, which is more than {MOST:,}")
    return files
