"""The faults of `tml`: their sentences, their phases, and the line that tells one."""

import re
from typing import NamedTuple

SENTENCES = {
    1: "There is a byte that UTF-8 does not allow.",
    2: "An `&` in text or in the value of an attribute begins none of the references `&lt;`, `&gt;`, `&amp;`, `&quot;`, `&apos;`, "
    "`&#123;` and `&#x1F;`.",
    3: "No well-formed tag, comment, declaration or doctype begins at this `<`: a quote or a `>` is missing, an attribute has "
    "no value, the file ends within a tag, or there is a CDATA section, a processing instruction or a doctype with a subset of its own.",
    4: "A tag whose name is neither one of TimeML's nor a wrapper that corpora are known to have.",
    5: "An end tag that does not close the innermost open tag.",
    6: "The document ends before its root was closed.",
    7: "Something is where it may not be: text outside the root or inside MAKEINSTANCE, TLINK, ALINK or SLINK; a tag inside one of "
    "these; a root other than `TimeML`, a second root or a `TimeML` inside the root; a declaration that is not at the beginning; a "
    "doctype after a tag, or a second one.",
    8: "More than 32 tags would be open at once.",
    9: "A tag has an attribute twice.",
    10: "A tag lacks a required attribute, or has it with an empty value.",
    11: "An attribute has a value that is not in its list (upper and lower case differ, and no reference is decoded), or an identifier "
    "or a reference is not 1 to 64 letters, digits, `_`, `-` or `.`.",
    12: "A TLINK names both an event instance and a time as the same end.",
    13: "The `value` of a TIMEX3, of whatever type, has the form of a date, a week, a quarter, a half or a time of a day, and no such "
    "date exists, even with any digits for its `X`.",
    14: "The identifier of a tag (`eid`, `eiid`, `tid`, `sid` or `lid`) is that of a tag before it, of whatever kind.",
    15: "A reference is not the identifier of a tag of the kind that it asks for, anywhere in the document.",
    16: "The tag is the 1,025th among MAKEINSTANCE and TIMEX3.",
    17: "The tag is the 4,097th TLINK.",
}
"""The first sentence on each fault in docs/FAULTS.md. A test compares the two."""

NOT_UTF8, BAD_REFERENCE, BAD_MARKUP, UNKNOWN_TAG, UNBALANCED, UNCLOSED, MISPLACED, TOO_DEEP = range(1, 9)
REPEATED, MISSING, BAD_VALUE, CONFLICT, BAD_DATE, DUPLICATE, UNKNOWN_REFERENCE, MANY_INTERVALS, MANY_LINKS = range(9, 18)

PHASE_ENDS = (1, 3, 8, 13, 17)
"""The last fault of each phase. `tml` asks one phase after the other."""


class Fault(NamedTuple):
    """A fault as `tml` tells it."""

    number: int
    name: str
    offset: int

    def order(self) -> tuple[int, int, int]:
        """What `tml` goes by: the phase, then the place, then the number. It tells the fault that is first in this."""
        phase = next((index for index, last in enumerate(PHASE_ENDS) if self.number <= last), len(PHASE_ENDS))
        return phase, self.offset, self.number

    def title(self) -> str:
        """The number and the name."""
        return f"{self.number} {self.name}"

    def sentence(self) -> str:
        """What the fault means to an annotator."""
        return SENTENCES.get(self.number, "This companion does not know the fault; see docs/FAULTS.md.")


def read_fault(text: bytes) -> Fault | None:
    """The fault that an answer of `tml` tells, or None where it is another answer."""
    found = re.fullmatch(rb"fault (\d+) (\w+) (\d+)\n", text)
    return Fault(int(found[1]), found[2].decode(), int(found[3])) if found else None
