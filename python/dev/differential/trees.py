"""A referee by Python's `xml.parsers.expat` and `datetime`: canonical texts as trees, and the dates of the tags in a tree.

What `tml` accepts needs not be XML: of a document that expat refuses nothing is said.
"""

from __future__ import annotations

import re
from collections.abc import Sequence
from xml.parsers import expat

from differential.cases import Case
from differential.datetimes import bounds
from reference import Outcome
from tml.statuses import TmlStatus

Node = tuple[str, str, tuple[tuple[str, str], ...]]
"""A part of a tree as it is met: what it is, its name or text, and its attributes by their names."""


DECODED = re.compile(
    rb"""\s(?:tid|type|value|mod|eiid|relType|eventInstanceID|timeID|relatedToEventInstance|relatedToTime)\s*=\s*("[^"<]*&|'[^'<]*&)""",
)
"""A reference in a value that means something: expat decodes it, and `tml` does not."""


class Reading:
    """Reads a document by expat: the parts of its root, in order."""

    def __init__(self) -> None:
        self.nodes: list[Node] = []
        self.depth = 0
        self.parser = expat.ParserCreate("utf-8")
        self.parser.buffer_text = True
        self.parser.StartElementHandler = self.start
        self.parser.EndElementHandler = self.end
        self.parser.CharacterDataHandler = self.text
        self.parser.CommentHandler = self.comment

    def start(self, name: str, attributes: dict[str, str]) -> None:
        """Takes a start tag."""
        self.depth += 1
        self.nodes.append(("start", name, tuple(sorted(attributes.items()))))

    def end(self, name: str) -> None:
        """Takes an end tag."""
        self.depth -= 1
        self.nodes.append(("end", name, ()))

    def text(self, text: str) -> None:
        """Takes a text, which goes on with the one before it where nothing is between them."""
        if self.nodes and self.nodes[-1][0] == "text":
            text = self.nodes.pop()[1] + text
        self.nodes.append(("text", text, ()))

    def comment(self, text: str) -> None:
        """Takes a comment; one outside the root is not part of the tree."""
        if self.depth:
            self.nodes.append(("comment", text, ()))


def tree_of(document: bytes) -> list[Node] | None:
    """The parts of a document's root, or None where expat refuses it."""
    reading = Reading()
    try:
        reading.parser.Parse(document, True)
    except expat.ExpatError:
        return None
    return reading.nodes


def dates_of(nodes: Sequence[Node]) -> str:
    """The lines that `tml dates` is to print of a tree."""
    lines = []
    for _, name, attributes in (node for node in nodes if node[:2] == ("start", "TIMEX3")):
        del name
        given = dict(attributes)
        found = bounds(given.get("type", ""), given.get("mod", ""), given.get("value", ""))
        lines.append(f"{given['tid']} free" if found is None else found.line(given["tid"]))
    return "".join(f"{line}\n" for line in lines)


def complaint(case: Case, outcome: Outcome) -> str | None:
    """What is wrong with a canonical text, or with dates, of a document that expat reads."""
    if outcome.status != TmlStatus.DONE or case.words[:1] not in ((b"canon",), (b"dates",)):
        return None
    document = case.files[case.words[1]]
    if case.words[0] == b"dates" and DECODED.search(document):
        return None
    tree = tree_of(document)
    if tree is None:
        return None
    if case.words[0] == b"dates":
        wanted = dates_of(tree).encode()
        return None if outcome.text == wanted else f"By datetime the dates are {wanted!r}, and not {outcome.text!r}."
    return None if tree_of(outcome.text) == tree else f"By expat the canonical text {outcome.text!r} has another tree than its document."
