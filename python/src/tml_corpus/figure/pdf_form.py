"""A picture for a paper as PDF: by the library cairosvg where it is installed, or else by Chromium."""

from __future__ import annotations

import importlib
import os
import shutil
import subprocess
from contextlib import suppress
from pathlib import Path
from typing import Any

from tml.markup import element, html_file, lined, raw
from tml.running import RUNNING, end, ended

from ..asking.program import CannotRun
from ..files.replacing import replace_file
from ..files.writing import folder_for_a_while, unbroken
from ..timeline.lettering import is_turned
from .shapes import Figure, Text
from .svg_form import POINTS_OF_MILLIMETRE, drawing, svg

BROWSERS = ("chromium", "chromium-browser", "google-chrome")
PATIENCE = 120
"""How many seconds a browser may take."""

MISSING = "a PDF is made by the library cairosvg or the program chromium, and neither is installed: write .svg, or .tex"


def pdf(figure: Figure) -> bytes:
    """The picture as a file. The library puts letters from right to left in a wrong order, so if there are such a browser comes first."""
    browser = next((found for name in BROWSERS if (found := shutil.which(name))), None)
    if browser is None or not any(isinstance(shape, Text) and is_turned(shape.text) for shape in figure.shapes):
        with suppress(ImportError):
            cairosvg: Any = importlib.import_module("cairosvg")
            return bytes(cairosvg.svg2pdf(bytestring=svg(figure).encode("utf-8")))
    if browser is None:
        raise CannotRun(MISSING)
    return by_browser(figure, browser)


def by_browser(figure: Figure, browser: str) -> bytes:
    """The same, as a browser prints it on a page of its size."""
    broad, high = (f"{length / POINTS_OF_MILLIMETRE:.2f}mm" for length in (figure.width, figure.height))
    style = f"@page{{size:{broad} {high};margin:0}}html,body{{margin:0}}svg{{display:block}}"
    head = element("head", element("meta", charset="utf-8"), element("title", figure.title), raw("style", style))
    page = html_file(element("html", lined(head, element("body", drawing(figure))), lang="en"))
    with folder_for_a_while() as folder:
        source, target = Path(folder, "figure.html"), Path(folder, "figure.pdf")
        replace_file(str(source), page.encode("utf-8"))
        run(browser, folder, source, target)
        if not target.is_file():
            raise CannotRun(f"{browser} printed no PDF: write .svg, or .tex")
        return target.read_bytes()


def run(browser: str, folder: str, source: Path, target: Path) -> None:
    """Lets a browser print a page. It refuses to work for root unless its sandbox is off; the page has no script and loads nothing.

    All that it writes is in the folder, and all its processes end with it.
    """
    sandbox = ["--no-sandbox"] if os.geteuid() == 0 else []
    words = ["--headless", "--disable-gpu", "--disable-dev-shm-usage", "--no-first-run", "--no-pdf-header-footer", *sandbox]
    words += [f"--user-data-dir={folder}/profile", f"--print-to-pdf={target}"]
    environment = os.environ | dict.fromkeys(("TMPDIR", "XDG_RUNTIME_DIR", "BREAKPAD_DUMP_LOCATION"), folder)
    null = subprocess.DEVNULL
    child = None
    try:
        with unbroken():
            words = [browser, *words, source.as_uri()]
            child = subprocess.Popen(words, stdin=null, stdout=null, stderr=null, env=environment, start_new_session=True)
            RUNNING.add(child)
        ended(child, PATIENCE)
    except (OSError, subprocess.TimeoutExpired) as problem:
        raise CannotRun(f"{browser} printed no PDF: {problem}") from None
    finally:
        if child is not None:
            with unbroken():
                end(child)
                RUNNING.discard(child)
