"""Starts a program of this package, as the files of tools/ and the commands that pip installs do, and ends with its status.

With too little memory it is an import that fails. So neither this module nor the packages around it import anything that Python has not
loaded by itself, and all else is imported where what goes wrong is caught and ends as it does for every companion.
"""

import os
import sys

TYPE_CHECKING = False
if TYPE_CHECKING:
    from typing import NoReturn

MODULES = {
    "tml_corpus": "tml_corpus.command_line.main",
    "tml_edit": "tml_corpus.convert.tml_edit",
    "redundant_links": "tml_corpus.convert.redundant_links",
    "from_tempeval2": "tml_corpus.convert.from_tempeval2",
    "html_entities": "tml_corpus.convert.html_entities",
}
"""The programs, each with the module whose function `main` runs it."""


def tml_corpus() -> "NoReturn":
    """Starts `tml-corpus`."""
    launch("tml_corpus")


def tml_edit() -> "NoReturn":
    """Starts `tml-edit`."""
    launch("tml_edit")


def redundant_links() -> "NoReturn":
    """Starts `redundant-links`."""
    launch("redundant_links")


def from_tempeval2() -> "NoReturn":
    """Starts `from-tempeval2`."""
    launch("from_tempeval2")


def html_entities() -> "NoReturn":
    """Starts `html-entities`."""
    launch("html_entities")


def launch(program: str) -> "NoReturn":
    """Runs a program, and ends Python with the status that it answers.

    While modules are imported an interruption ends it at once: raised in an import it would be lost, or shown with all that was under way.
    """
    name = os.path.basename(sys.argv[0])
    # They are made while there is memory for them.
    no_memory, interrupted = os.fsencode(f"{name}: out of memory\n"), os.fsencode(f"{name}: interrupted\n")
    try:
        signals = __import__("_signal")
        before = signals.getsignal(signals.SIGINT)
        if before is signals.default_int_handler:
            signals.signal(signals.SIGINT, lambda *_: give_up(interrupted, 130))
        from importlib import import_module

        main = import_module(MODULES[program]).main
        signals.signal(signals.SIGINT, before)
        status = main()
    except KeyboardInterrupt:
        give_up(interrupted, 130)
    except MemoryError:
        give_up(no_memory)
    except Exception as problem:
        give_up(os.fsencode(f"{name}: cannot run: {problem!a}\n"))
    sys.exit(status)


def give_up(line: bytes, status: int = 2) -> "NoReturn":
    """Ends with one line and status 2: Python itself would end with status 1, which says that something was found."""
    try:
        os.write(2, line)
    finally:
        os._exit(status)
