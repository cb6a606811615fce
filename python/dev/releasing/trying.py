"""Tries a release in a new Debian 12 that `mmdebstrap` makes and throws away: without a kit, a compiler and this repository.

templates/try.sh says what is tried. Root makes the system at once, and others if they may have namespaces of users.
"""

from __future__ import annotations

import subprocess
import sys
from pathlib import Path

from building.compiling import TOP
from building.linking import CannotMake, need_programs
from releasing.debian import TEMPLATES
from releasing.manifest import need_whole

SCRIPT = TEMPLATES / "try.sh"


def try_release(folder: Path) -> None:
    """Tries all files of a release. What does not pass is an error, and what was printed before goes to standard error."""
    need_whole(folder)
    need_programs(("mmdebstrap",))
    hooks = [
        'mkdir "$1/release" "$1/samples"',
        f"sync-in {folder.resolve()} /release",
        f"sync-in {TOP}/samples /samples",
        f"upload {SCRIPT} /try.sh",
        'chroot "$1" env -i PATH="$PATH" LC_ALL=C.UTF-8 sh /try.sh',
    ]
    words = ["mmdebstrap", "--variant=minbase", "--include=python3-venv", "--format=null"]
    words += [*(f"--customize-hook={hook}" for hook in hooks), "bookworm", "/dev/null"]
    status = subprocess.run(words, stdin=subprocess.DEVNULL, stdout=sys.stderr, check=False).returncode
    if status != 0:
        raise CannotMake(f"a file of {folder} did not pass, or there is no new system: mmdebstrap ended with status {status}")
    print(f"{folder}: all files for this machine passed")
