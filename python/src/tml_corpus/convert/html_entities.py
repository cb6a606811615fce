"""Replaces the named entities of HTML, as &nbsp; and &eacute;, by characters, from standard input to standard output.

The five names of XML (lt, gt, amp, quot, apos) stay, and so do names that HTML does not have. The document has to be UTF-8, and
may have twice as many bytes as one that `tml` takes.

Example: tools/html-entities < old.xml > new.xml

Status 0 says that all was written, 1 that the document is not UTF-8, and 2 that the words are of no known form or that
something could not be read or written.
"""

from __future__ import annotations

import re
import sys
from collections.abc import Sequence
from html.entities import html5
from xml.sax.saxutils import escape

from tml.statuses import DOCUMENT_LIMIT

from ..command_line.output import ProgramParser, RawFormatter, complain, run, standard_input
from ..command_line.statuses import Status
from ..files.finding import CannotRead

MOST_BYTES = 2 * DOCUMENT_LIMIT

OF_XML = ("lt;", "gt;", "amp;", "quot;", "apos;")


def character(found: re.Match[str]) -> str:
    """What stands in the place of a reference."""
    name = found[1]
    return escape(html5[name]) if name in html5 and name not in OF_XML else found[0]


def copy(words: list[str]) -> int:
    """Copies the document and answers the status."""
    ProgramParser(description=__doc__, formatter_class=RawFormatter).parse_args(words)
    try:
        document = standard_input(MOST_BYTES + 1)
        if len(document) > MOST_BYTES:
            raise CannotRead(f"standard input has more than {MOST_BYTES:,} bytes")
        text = document.decode("utf-8")
    except UnicodeDecodeError as error:
        return complain(f"byte {error.start} is not UTF-8", Status.FINDING)
    sys.stdout.buffer.write(re.sub(r"&([A-Za-z][A-Za-z0-9]*;)", character, text).encode("utf-8"))
    return Status.SUCCESS


def main(words: Sequence[str] | None = None) -> int:
    """Runs the program and answers its status."""
    return run(copy, words)
