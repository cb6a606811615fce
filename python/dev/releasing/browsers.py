"""The files for browsers and Node, if tools/web/build has made them."""

from __future__ import annotations

import shutil

from building import compiling, page
from building.web import HANDED_OUT, PROGRAMS, SOURCES
from releasing.outputs import made_apart

FOLDER = compiling.OUT / "web"
NAMES = (page.NAME, "tml.wasm", *HANDED_OUT)


def web_files() -> dict[str, bytes]:
    """All of them by their names, if they were made."""
    return made_apart(FOLDER, NAMES, SOURCES.iterdir())


def what_makes_them() -> str:
    """The command that makes them, on this machine."""
    build = "tools/web/build crates/tml_c/out/web"
    return build if all(map(shutil.which, PROGRAMS)) else f"tools/install-needs && {build}"
