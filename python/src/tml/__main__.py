"""`python -m tml`: one question to the library or the program that the package finds, in the words of `tml`: `python -m tml check FILE`.

Without words it says which version of the package this is, and who answers. A file is named by its path, or is `-` for standard input.
"""

from __future__ import annotations

import sys
from collections.abc import Sequence

from . import __version__
from .asking import LIMITS, content, default_answerer
from .library import Library
from .process import Process
from .replies import DONE
from .running import CannotRun
from .statuses import DOCUMENT_LIMIT, TmlStatus

COMMANDS = ("check", "spans", *DONE)

FORMS = {
    "score": "DOC KEY", "ask": "DOC X REL Y", "possible": "DOC X Y", "verify": "DOC EVIDENCE", "confirm": "DOC SECONDS",
    "renew": "EVIDENCE", "join": "EVIDENCE SECOND", "drill": "N",
}  # fmt: skip
"""The words after a command, where they are not those of `check`."""

USAGE = "usage: python -m tml COMMAND FILE.. WORD..\n"
HELP = """
A file is a path, or - for standard input. docs/COMMANDS.md says what the commands answer.
Without words, or with --version, this prints the version; without words also who answers:
the library that TML_LIBRARY names, or the program that TML names, or one that is found.
"""


def main(words: Sequence[str]) -> int:
    """Answers the status."""
    if words in (["--version"], ["-V"]):
        print(f"tml {__version__}")
        return TmlStatus.DONE
    if words in (["--help"], ["-h"]):
        print(USAGE, *(f"  {command} {FORMS.get(command, 'DOC')}" for command in COMMANDS), HELP, sep="\n", end="")
        return TmlStatus.DONE
    try:
        if not words:
            print(f"tml {__version__}, the package for Python; {answerer_in_words()}")
            return TmlStatus.DONE
        return asked(*words)
    except CannotRun as problem:
        print(f"tml: {problem}", file=sys.stderr)
        return TmlStatus.USAGE


def answerer_in_words() -> str:
    """Who answers."""
    found = default_answerer()
    if isinstance(found, Library):
        return f"answered by the library {found.path}"
    return f"answered by the program {found.path}" if isinstance(found, Process) else "answered by something else"


def asked(command: str, *words: str) -> int:
    """The status of one question, whose answer is printed."""
    limits = () if command == "drill" else LIMITS.get(command, (DOCUMENT_LIMIT,))
    if command not in COMMANDS or len(words) < len(limits):
        print(f"{USAGE}python -m tml --help has the commands", file=sys.stderr)
        return TmlStatus.USAGE
    try:
        files = [sys.stdin.buffer.read(most + 1) if word == "-" else content(word, most) for word, most in zip(words, limits, strict=False)]
    except OSError as error:
        print(f"tml: {error}", file=sys.stderr)
        return TmlStatus.READ_FAULT
    status, text = default_answerer().answer(command, files, words[len(limits) :])
    sys.stdout.buffer.write(text)
    sys.stdout.flush()
    return status


if __name__ == "__main__":
    sys.exit(main(sys.argv[1:]))
