"""The packages as pip installs them, and the tests of what is installed in the place of the clone: `tools/tests --installed`."""

from __future__ import annotations

import contextlib
import importlib.util
import os
import shutil
import subprocess
import tempfile
import unittest
from collections.abc import Iterator
from pathlib import Path
from unittest import mock

from processes import PATIENCE, WITH_PACKAGES, with_own_bytecode

TOP = Path(__file__).resolve().parents[2]

CAN_INSTALL = all(map(importlib.util.find_spec, ("pip", "setuptools", "wheel")))
"""Whether a package can be installed without a network. Only setuptools before 70.1 need `wheel` to make one."""

CANNOT = "no modules pip, setuptools and wheel: install python3-pip, python3-setuptools and python3-wheel"

INSTALLED = os.environ.get("TML_INSTALLED")
"""The folder with the installed packages, where these are tested and not the clone."""

of_the_clone = unittest.skipIf(INSTALLED, "of the clone alone")


def install(target: Path) -> None:
    """Installs the packages into a folder, from a copy of what pip reads."""
    with tempfile.TemporaryDirectory(prefix="source-") as name:
        source = Path(name)
        for file in ("pyproject.toml", "README.md"):
            shutil.copy(TOP / file, source)
        shutil.copytree(TOP / "python/src", source / "python/src", ignore=shutil.ignore_patterns("__pycache__"))
        words = ["--quiet", "--no-deps", "--no-index", "--no-build-isolation", "--no-compile", "--target", str(target), str(source)]
        command, environment = [*WITH_PACKAGES, "-m", "pip", "install", *words], with_own_bytecode()
        done = subprocess.run(command, env=environment, capture_output=True, text=True, check=False, timeout=PATIENCE)
    if done.returncode != 0:
        raise RuntimeError(done.stderr)


@contextlib.contextmanager
def installed() -> Iterator[None]:
    """Has the processes that begin meanwhile test what is installed: they find the packages and the commands there."""
    if not CAN_INSTALL:
        raise RuntimeError(CANNOT)
    with tempfile.TemporaryDirectory(prefix="installed-") as name:
        folder = Path(name)
        folder.chmod(0o755)
        install(folder)
        link_tools(folder)
        with mock.patch.dict(os.environ, TML_INSTALLED=name, PYTHONPATH=name):
            yield


def link_tools(folder: Path) -> None:
    """Makes a folder as tools/ is, beside what is installed: with the installed commands in the place of the programs of the clone."""
    from releasing.debian import SCRIPTS

    (folder / "tools").mkdir()
    for path in (TOP / "tools").iterdir():
        (folder / "tools" / path.name).symlink_to(folder / "bin" / SCRIPTS[path.name] if path.name in SCRIPTS else path)
