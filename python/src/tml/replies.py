"""Which replies of `tml` are believed: those whose status and text fit each other and the question.

So what another program answers, or a `tml` that does not work, is not a judgement. What a reply says is not judged here. The patterns of
the commands stand here as texts, since to compile all of them takes longer than to ask one question: `re` keeps those that it has compiled.
"""

from __future__ import annotations

import re
from collections.abc import Callable, Mapping, Sequence

from .statuses import FAULT_NAMES, RELATIONS, TmlStatus

LINE = rb"(?<![^\n])"
"""The beginning of a line, or the end of the text. It follows each repetition of lines that is not looked at again: Python 3.11.2 lets such
a repetition end in the middle of a line."""

NAME = rb"[A-Za-z0-9_.-]{1,64}"
RELATION = "|".join(RELATIONS).encode()
NUMBER = rb"\d{1,19}"
"""A number that can be read: none that `tml` prints has more digits."""

COUNTED_TAGS = (b"events", b"instances", b"timex", b"signals", b"tlinks", b"alinks", b"slinks")
COUNTS = b"".join(rb"%s (%s)\n" % (name, NUMBER) for name in COUNTED_TAGS)
LINKS = rb"(?:tlink %s %s (?:%s) %s\n)*+%s" % (NUMBER, NAME, RELATION, NAME, LINE)
ACCEPTED = rb"accepted\n%s((?:interval %s %s\n)*+)%s(%s)" % (COUNTS, NUMBER, NAME, LINE, LINKS)
FAULT = rb"fault (\d{1,2}) (\w+) (\d{1,7})\n"

EVIDENCE = rb"tml-evidence (?:1|2\nclaims 1)\n"
"""How the text of one claim begins, of either version."""

CLAIMS = rb"tml-evidence 2\nclaims [1-9]\d*\n(?s:.*)(?<=\n)end\n"
"""A text of claims of version 2."""

KIND = EVIDENCE + rb"(timeline|entails|counter|clash) "
NUMBERS = rb"(?: %s)*" % NUMBER
TO_THE_END = rb"(?:[a-z]++%s\n)++(?<=\nend\n)" % NUMBERS
"""The further lines of one claim. Where texts may be long, nothing that was matched is looked at again, which would take much memory."""

PART = rb"relation (?:%s)\ntimeline %s\n(?:at %s %s\n)*+%s" % (RELATION, NUMBER, NUMBER, NUMBER, LINE)
CLAIM = rb"verified (?:timeline|(?:entails|counter) %s (?:%s) %s|clash%s)\n" % (NAME, RELATION, NAME, NUMBERS)

SECOND = rb"-?%s" % NUMBER
CIVIL = rb"[\dT:-]{1,20}"

DONE = {
    "dates": rb"(?:%s (?:free|(?:exact|within) %s %s %s %s)\n)*+%s" % (NAME, SECOND, SECOND, CIVIL, CIVIL, LINE),
    "solve": EVIDENCE + rb"timeline %s\n%s" % (NUMBER, TO_THE_END),
    "relations": rb"(?:%s (?:%s) %s\n)*+%s" % (NAME, RELATION, NAME, LINE),
    "canon": rb"<(?s:.*)\n",
    "verify": rb"(?:%s)++%s" % (CLAIM, LINE),
    "reduce": rb"reduced (%s) of (%s)\n(%s)" % (NUMBER, NUMBER, LINKS),
    "score": rb"precision (%s) of (%s)\nrecall (%s) of (%s)\n" % ((NUMBER,) * 4),
    "seconds": rb"tml-seconds 1\nplacing (%s)\n((?:at %s %s\n)*+)%send\n" % (NUMBER, SECOND, SECOND, LINE),
    "confirm": rb"confirmed (?:placing|cycle)\n",
    "ask": EVIDENCE + rb"(?:entails|counter) %s (?:%s) %s\n%s" % (NUMBER, RELATION, NUMBER, TO_THE_END),
    "possible": rb"possible (%s)\n((?:%s)+)" % (NUMBER, PART),
    "matrix": rb"(?:%s %s(?: (?:%s))+\n)*+%s" % (NAME, NAME, RELATION, LINE),
    "renew": CLAIMS,
    "join": CLAIMS,
    "drill": rb"drill %s\nbytes %s\nlinks %s\ngreatest %s\nrelations %s\nverified timeline\n" % ((NUMBER,) * 5),
}
"""The texts with status 0; of `check`, `spans`, `reduce` and `score` more is asked."""

OF_KEY = b"key "
"""What stands before a line of `score` that is about its second document."""

CYCLE = rb"tml-seconds 1\ncycle (%s)\n((?:(?:via %s|span|lower|upper|least|most) %s\n)++)%send\n" % (*(NUMBER,) * 3, LINE)
"""What `seconds` answers where there is no placing."""

OF_NETS = ("solve", "relations", "matrix", "reduce", "score", "ask", "possible")
"""The commands that answer a clash where no timeline fits."""

BAD_LINE = rb"evidence line %s\n" % NUMBER
REFUSED = {
    "verify": BAD_LINE + rb"|evidence claim %s part %s \w+%s\n" % (NUMBER, NUMBER, NUMBERS),
    "confirm": BAD_LINE + rb"|seconds \w+(?: %s)?\n" % NUMBER,
    "renew": BAD_LINE,
    "join": rb"(?:evidence|second) line %s\n" % NUMBER,
}
"""What is said of evidence and of seconds that are malformed or wrong, by each command that may say so."""

OTHER = {
    TmlStatus.CLASH: ((*OF_NETS, "seconds"), EVIDENCE + rb"clash %s\ncite %s\n%s" % (NUMBER, NUMBER, TO_THE_END)),
    TmlStatus.READ_FAULT: (None, rb"read fault\n"),
    TmlStatus.NO_MEMORY: (None, rb""),
    TmlStatus.UNKNOWN_NAME: (("ask", "possible"), rb"unknown (?:X|REL|Y)\n"),
    TmlStatus.TOO_LONG: (None, rb"too long (?:DOC|EVIDENCE|SECOND|KEY|SECONDS)\n"),
}
"""The commands that may end with a status, where not all may, and the text that goes with it."""


def kind_of(text: bytes) -> bytes:
    """The kind of the one claim that a text of evidence has, by its first word; nothing where it does not begin so."""
    found = re.match(KIND, text)
    return found[1] if found else b""


def refusal(words: Sequence[str], status: int, text: bytes, size: int | None) -> str | None:
    """Why a reply about a document of so many bytes (if that is known) is not believed, or None where it is."""
    command = words[0]
    if not is_expected(command, status):
        return f"tml answered status {status}, which `{command}` should not"
    if not fits(words, TmlStatus(status), text, size):
        return f"tml answered status {status} to `{command}`, and a text that does not go with it"
    return None


def is_expected(command: str, status: int) -> bool:
    """Whether a command may end with a status."""
    if status == TmlStatus.EVIDENCE_FAULT:
        return command in REFUSED
    if status in OTHER:
        commands = OTHER[TmlStatus(status)][0]
        return commands is None or command in commands
    return status in (TmlStatus.DONE, TmlStatus.DOC_FAULT)


def fits(words: Sequence[str], status: TmlStatus, text: bytes, size: int | None) -> bool:
    """Whether the text is one that goes with the status."""
    if words[0] == "score" and text.startswith(OF_KEY):
        rest = text.removeprefix(OF_KEY)
        return rest == b"clash\n" if status == TmlStatus.CLASH else status == TmlStatus.DOC_FAULT and fault_fits("score", rest, None)
    if status == TmlStatus.DOC_FAULT:
        return fault_fits(words[0], text, size)
    if words[0] == "seconds" and status == TmlStatus.CLASH:
        found = re.fullmatch(CYCLE, text)
        return found is not None and lines_fit(found)
    if status == TmlStatus.EVIDENCE_FAULT:
        return re.fullmatch(REFUSED[words[0]], text) is not None
    if status in OTHER:
        return re.fullmatch(OTHER[status][1], text) is not None
    if words[0] == "check":
        return counts_fit(text)
    if words[0] == "spans":
        return text.startswith(b"0 ") if size or text else size is not None
    found = re.fullmatch(DONE[words[0]], text)
    return found is not None and (words[0] not in COUNTED or COUNTED[words[0]](found))


def reduced_fits(found: re.Match[bytes]) -> bool:
    """Whether the counts of `tml reduce` are those of its lines, whose numbers rise and are numbers of links."""
    numbers = numbers_of(found[3])
    return len(numbers) == int(found[1]) and numbers == sorted({number for number in numbers if number < int(found[2])})


def scores_fit(found: re.Match[bytes]) -> bool:
    """Whether no count of `tml score` is greater than the one of which it is a part."""
    matched, links, found_links, key_links = map(int, found.groups())
    return matched <= links and found_links <= key_links


def lines_fit(found: re.Match[bytes]) -> bool:
    """Whether there are as many lines as the first of them says."""
    return found[2].count(b"\n") == int(found[1])


COUNTED: Mapping[str, Callable[[re.Match[bytes]], bool]] = {"reduce": reduced_fits, "score": scores_fit, "seconds": lines_fit}
"""What is asked of the counts in a text with status 0, besides its form."""


def fault_fits(command: str, text: bytes, size: int | None) -> bool:
    """Whether this is the line of a fault, with its name, at a place of the document; `spans` has the first three only."""
    found = re.fullmatch(FAULT, text)
    if found is None:
        return False
    number, place = int(found[1]), int(found[3])
    known = 1 <= number <= (3 if command == "spans" else len(FAULT_NAMES)) and FAULT_NAMES[number - 1].encode() == found[2]
    return known and (size is None or place <= size)


def counts_fit(text: bytes) -> bool:
    """Whether the counts of `tml check` are those of the lines after them, which are numbered from 0 on."""
    found = re.fullmatch(ACCEPTED, text)
    if found is None:
        return False
    instances, times, links = int(found[2]), int(found[3]), int(found[5])
    return numbered(found[8]) == instances + times and numbered(found[9]) == links


def numbered(lines: bytes) -> int:
    """How many lines there are, or -1 where they are not numbered from 0 on."""
    numbers = numbers_of(lines)
    return len(numbers) if numbers == list(range(len(numbers))) else -1


def numbers_of(lines: bytes) -> list[int]:
    """The numbers of lines: each stands after the first word."""
    return [int(line.split(b" ", 2)[1]) for line in lines.splitlines()]
