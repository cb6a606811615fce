"""Modules that all processes of the tests share, so that each is compiled and imported once, and nothing is left in the repository."""

import contextlib
import importlib
import os
import pkgutil
import subprocess
import sys
import tempfile
from collections.abc import Iterator, Sequence
from pathlib import Path
from unittest import mock


@contextlib.contextmanager
def compiled_once() -> Iterator[None]:
    """Gives the processes that begin meanwhile a folder of compiled modules: ours, and those of Python that they import.

    Those with PYTHONDONTWRITEBYTECODE only read it. So a process with room for small files alone leaves no part of a module there.
    This process imports the modules too, so that what is forked from it has them already.
    """
    top = Path(__file__).resolve().parents[1]
    folders = [os.environ.get("TML_INSTALLED") or str(top / "src"), str(top / "dev"), str(top / "tests")]
    with tempfile.TemporaryDirectory(prefix="bytecode-") as folder, mock.patch.dict(os.environ, PYTHONPYCACHEPREFIX=folder):
        writing = {name: value for name, value in os.environ.items() if name != "PYTHONDONTWRITEBYTECODE"}
        subprocess.run([sys.executable, __file__, *folders], env=writing, check=True)
        with mock.patch.object(sys, "pycache_prefix", folder):
            import_all(folders)
            yield


def import_all(folders: Sequence[str]) -> None:
    """Imports all modules of some folders, besides the tests."""
    for module in pkgutil.walk_packages(folders):
        if not module.name.startswith("test_"):
            importlib.import_module(module.name)


if __name__ == "__main__":
    sys.path[:0] = sys.argv[1:]
    import_all(sys.argv[1:])
