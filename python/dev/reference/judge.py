"""What is right for a run to answer: docs/COMMANDS.md, as a differential tester asks it."""

from __future__ import annotations

from collections.abc import Sequence

from .answers import READ_FAULT, Answer, Files, Free, Outcome, Status, answer, files_of


def expected(words: Sequence[bytes], files: Files) -> Outcome | Free:
    """The one outcome of a command over known files, where no device fails and memory suffices.

    The file `-` is standard input, and a name that is not in `files` is a read fault. Where the text is free the answer is
    a `Free`, which has the status and says of a text whether it is a right one.
    """
    return answer(words, files)


def quoted(text: bytes) -> str:
    """The beginning of a text, for a sentence."""
    return repr(text if len(text) <= 200 else text[:200] + b"...")


def judge(words: Sequence[bytes], files: Files, outcome: Outcome) -> str | None:
    """None where an outcome is right, and else one sentence that says what is wrong."""
    return wrong_whole(expected(words, files), outcome)


def wrong_whole(wanted: Answer, outcome: Outcome) -> str | None:
    """What is wrong with an outcome whose text was written whole."""
    if outcome.status != wanted.status:
        return f"The status is {outcome.status}, and should be {int(wanted.status)}; the text is {quoted(outcome.text)}."
    if isinstance(wanted, Free):
        wrong = wanted.complaint(outcome.text)
        return None if wrong is None else f"Of the text {quoted(outcome.text)}: {wrong}."
    if outcome.text != wanted.text:
        return f"The text is {quoted(outcome.text)}, and should be {quoted(wanted.text)}."
    return None


def judge_failing(words: Sequence[bytes], files: Files, outcome: Outcome, *, reads_failed: bool, room: int | None) -> str | None:
    """The same where a device may have failed.

    Where a read failed, a read fault is right if the words have a file to read. A sink of so many bytes of room takes
    no more than these, and a fault of it comes only where it has no room left (*Room*).
    """
    wanted = expected(words, files)
    wrong = wrong_in_room(wanted, outcome, room)
    if wrong is None or not reads_failed or not files_of(words):
        return wrong
    return None if wrong_in_room(READ_FAULT, outcome, room) is None else wrong


def wrong_in_room(wanted: Answer, outcome: Outcome, room: int | None) -> str | None:
    """What is wrong with an outcome, where a sink had so many bytes of room."""
    if room is None or len(outcome.text) < room:
        return wrong_whole(wanted, outcome)
    if len(outcome.text) > room:
        return f"There are {len(outcome.text)} bytes, and there was room for {room}."
    whole = wrong_whole(wanted, outcome)
    if whole is None:
        return None
    status = Status.WRITE_FAULT if wanted.status == Status.DONE else wanted.status
    if outcome.status != status:
        return f"The status is {outcome.status}, and should be {int(status)}, as the text is cut off after {room} bytes."
    return wrong_prefix(wanted, outcome.text)


def wrong_prefix(wanted: Answer, text: bytes) -> str | None:
    """What is wrong with a text as one that was cut off before its end.

    Of a text that is free it is asked that its whole lines are begun, and that the text is not already whole.
    """
    if isinstance(wanted, Outcome):
        cut_off = len(text) < len(wanted.text) and wanted.text.startswith(text)
        return None if cut_off else f"The text {quoted(text)} is not cut off from {quoted(wanted.text)}."
    whole_lines = text[: text.rfind(b"\n") + 1]
    head = wanted.form.head
    if not head.startswith(whole_lines[: len(head)]):
        return f"The text {quoted(text)} does not begin with {quoted(head)}."
    bad = wanted.form.read(whole_lines)
    if not isinstance(bad, int):
        return f"The text {quoted(text)} is whole, and was not cut off."
    return None if bad == whole_lines.count(b"\n") + 1 else f"The text {quoted(text)} begins the text of no evidence: line {bad} is bad."
