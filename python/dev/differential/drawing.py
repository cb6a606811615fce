"""Draws cases of all subjects. A batch of cases is decided by a seed and its number."""

from __future__ import annotations

import re
from collections.abc import Callable, Sequence
from dataclasses import dataclass, replace
from random import Random

from differential import placings
from differential.cases import STANDARD_INPUT, Case
from differential.chances import chance
from differential.devices import draw_memory, draw_real, with_memory
from differential.documents import document_of, draw_document, draw_pair
from differential.evidence import draw_claims, draw_damaged, draw_invented, older_text
from differential.faulty import draw_faulty
from differential.hostile import draw_hostile
from differential.lengths import draw_timed_net
from differential.mutated import draw_mutated, draw_noise
from differential.nets import Net, draw_net, draw_other_links
from differential.words import DOCUMENT, EVIDENCE, KEY, SECOND, SECONDS, draw_ask, draw_question, draw_words
from tml.statuses import DOCUMENT_LIMIT, EVIDENCE_LIMIT


@dataclass(frozen=True)
class Written:
    """Evidence that the program wrote, and the document that it is of."""

    document: bytes
    text: bytes


def of_document(random: Random, subject: str, document: bytes) -> Case:
    """A question about a document, which is sometimes standard input."""
    return redirected(random, Case(subject, draw_question(random, document), {DOCUMENT: document}))


def redirected(random: Random, case: Case) -> Case:
    """The same, where one of its files is standard input in one case of ten."""
    if not chance(random, 0.1) or not case.files:
        return case
    name = random.choice(list(case.files))
    words = tuple(STANDARD_INPUT if word == name else word for word in case.words)
    if case.words == (b"spans", name) and chance(random, 0.5):
        words = ()
    return replace(case, words=words, files={STANDARD_INPUT if key == name else key: content for key, content in case.files.items()})


def draw_right(random: Random) -> Case:
    """A question about a document without a fault."""
    return of_document(random, "right", draw_document(random))


def draw_canonical(random: Random) -> Case:
    """The canonical text, the dates, the relations, the matrix, the reduced links or the seconds of a document without a fault."""
    command = random.choice((b"canon", b"dates", b"dates", b"relations", b"matrix", b"reduce", b"seconds"))
    return Case("right", (command, DOCUMENT), {DOCUMENT: draw_document(random)})


def draw_wrong(random: Random) -> Case:
    """A question about a document with a fault that was made."""
    document = draw_faulty(random, draw_document(random))
    command = random.choice((b"check", b"check", b"check", b"solve", b"spans", b"canon", b"matrix", b"reduce", b"seconds"))
    return redirected(random, Case("faulty", (command, DOCUMENT), {DOCUMENT: document}))


def draw_mutation(random: Random) -> Case:
    """A question about a document with bytes that were changed."""
    document = draw_noise(random) if chance(random, 0.2) else draw_mutated(random, draw_document(random, random.randrange(5)))
    command = b"spans" if chance(random, 0.4) else random.choice((b"check", b"canon", b"dates", b"solve", b"relations", b"matrix"))
    return redirected(random, Case("mutated", (command, DOCUMENT), {DOCUMENT: document}))


def draw_reducing(random: Random) -> Case:
    """A question to `reduce` about a document of which many links follow from others."""
    net = draw_net(random)
    links = [*net.links, *draw_other_links(random, net).links]
    random.shuffle(links)
    document = document_of(random, Net(net.times, tuple(links), net.hidden))
    return redirected(random, Case("reducing", (b"reduce", DOCUMENT), {DOCUMENT: document}))


def draw_scored(random: Random) -> Case:
    """A question to `score`: two documents whose links mostly have something in common, of which one may have a fault, or not be there."""
    documents = list(draw_pair(random))
    if chance(random, 0.15):
        place = random.choice((0, 1, 1))
        documents[place] = draw_faulty(random, documents[place]) if chance(random, 0.7) else draw_document(random)
    files = dict(zip((DOCUMENT, KEY), documents, strict=True))
    words = (b"score", DOCUMENT, DOCUMENT if chance(random, 0.05) else KEY)
    if chance(random, 0.03):
        del files[random.choice(words[1:])]
    return redirected(random, Case("scored", words, files))


def draw_timed(random: Random) -> Case:
    """A question to `seconds` about dates and durations, or to `confirm` about the hidden placing, some seconds of which may be moved."""
    net = draw_timed_net(random)
    document = document_of(random, net)
    if chance(random, 0.8):
        return redirected(random, Case("timed", (b"seconds", DOCUMENT), {DOCUMENT: document}))
    text = placings.placing_of(net.hidden)
    text = placings.draw_damaged(random, text) if chance(random, 0.5) else text
    return redirected(random, Case("timed", (b"confirm", DOCUMENT, SECONDS), {DOCUMENT: document, SECONDS: text}))


def draw_hard(random: Random) -> Case:
    """A question about a hostile document."""
    return of_document(random, "hostile", draw_hostile(random))


def draw_long(random: Random) -> Case:
    """A document or evidence of about as many bytes as it may have: it is one text, or white space after the root."""
    before, after = random.choice(((b"<TimeML>", b"</TimeML>"), (b"<TimeML/>", b""), (b"", b"")))
    fill = b"\n" if before and not after else random.choice((b"x", b" "))
    more = random.choice((-1, 0, 1, 2))
    if chance(random, 0.3):
        commands = ((b"verify", DOCUMENT, EVIDENCE), (b"renew", EVIDENCE), (b"join", EVIDENCE, SECOND), (b"join", SECOND, EVIDENCE))
        words = random.choice((*commands, (b"confirm", DOCUMENT, EVIDENCE)))
        files = {DOCUMENT: b"<TimeML/>", EVIDENCE: fill * (EVIDENCE_LIMIT + more), SECOND: b"tml-evidence 1\ntimeline 0\nend\n"}
        return redirected(random, Case("long", words, {name: content for name, content in files.items() if name in words}))
    document = before + fill * (DOCUMENT_LIMIT + more - len(before + after)) + after
    return redirected(random, Case("long", (random.choice((b"spans", b"check", b"solve", b"dates")), DOCUMENT), {DOCUMENT: document}))


def draw_worded(random: Random) -> Case:
    """Words of any kind."""
    document = draw_document(random)
    files = {DOCUMENT: document, EVIDENCE: draw_invented(random, 3), SECOND: draw_invented(random, 1), STANDARD_INPUT: draw_noise(random)}
    files[SECONDS] = placings.draw_invented(random, 3)
    return Case("words", draw_words(random, document), files)


SUBJECTS: Sequence[tuple[float, Callable[[Random], Case]]] = (
    (30, draw_right),
    (10, draw_canonical),
    (25, draw_wrong),
    (20, draw_mutation),
    (6, draw_reducing),
    (10, draw_scored),
    (10, draw_timed),
    (6, draw_hard),
    (6, draw_worded),
    (0.1, draw_long),
)


def draw_case(random: Random) -> Case:
    """A case of a drawn subject, which no output of the program is part of; one in twenty has devices that fail."""
    case = random.choices([draw for _, draw in SUBJECTS], [weight for weight, _ in SUBJECTS])[0](random)
    if chance(random, 0.07) and case.subject != "long":
        return with_memory(case, draw_memory(random)) if all(is_utf8(word) for word in case.words) else case
    return draw_real(random, case) if chance(random, 0.01) else case


def is_utf8(word: bytes) -> bool:
    """Whether a word is UTF-8, as those of a table have to be."""
    try:
        word.decode()
    except UnicodeDecodeError:
        return False
    return True


def draw_writing(random: Random) -> Case:
    """A question whose answer is mostly evidence, about a small document."""
    document = draw_document(random, random.choice((1, 2, 2, 3, 3, 3, 4, 4, 5, 6)))
    words = (b"solve", DOCUMENT) if chance(random, 0.4) else draw_ask(random, document, right=True)
    return Case("writing", words, {DOCUMENT: document})


def draw_text(random: Random, one: Written, written: Sequence[Written]) -> bytes:
    """Evidence that was written, mostly damaged, or that is invented: one claim or several, of either version."""
    others = [random.choice(written).text for _ in range(3)]
    text = older_text(one.text) if chance(random, 0.3) else one.text
    if chance(random, 0.04):
        return text
    if chance(random, 0.08):
        return draw_invented(random, len(re.findall(rb"\s(?:eiid|tid)\s*=", one.document)))
    if chance(random, 0.2):
        text = draw_claims(random, [text, text, *(draw_damaged(random, text, others) for _ in range(2))])
        return draw_damaged(random, text, others) if chance(random, 0.3) else text
    return draw_damaged(random, text, others)


def draw_verifying(random: Random, written: Sequence[Written]) -> Case:
    """A question to `verify`: evidence that was written, mostly damaged, of the document or of another one."""
    one = random.choice(written)
    document = one.document if chance(random, 0.95) else random.choice(written).document
    text = draw_text(random, one, written)
    if chance(random, 0.02):
        document = draw_faulty(random, document)
    case = redirected(random, Case("evidence", (b"verify", DOCUMENT, EVIDENCE), {DOCUMENT: document, EVIDENCE: text}))
    return with_devices(random, case, 0.03)


def draw_joining(random: Random, written: Sequence[Written]) -> Case:
    """A question to `renew` or `join`: evidence that was written, as it is or damaged, of any documents."""

    def text() -> bytes:
        one = random.choice(written)
        if chance(random, 0.5):
            return older_text(one.text) if chance(random, 0.5) else one.text
        return draw_text(random, one, written)

    if chance(random, 0.4):
        case = Case("joining", (b"renew", EVIDENCE), {EVIDENCE: text()})
    elif chance(random, 0.05):
        case = Case("joining", (b"join", EVIDENCE, EVIDENCE), {EVIDENCE: text()})
    else:
        case = Case("joining", (b"join", EVIDENCE, SECOND), {EVIDENCE: text(), SECOND: text()})
    if chance(random, 0.03):
        gone = random.choice(case.words[1:])
        case = replace(case, files={name: content for name, content in case.files.items() if name != gone})
    return with_devices(random, redirected(random, case), 0.1)


def draw_of_evidence(random: Random, written: Sequence[Written]) -> Case:
    """A question to `verify`, `renew` or `join`."""
    return draw_joining(random, written) if chance(random, 0.25) else draw_verifying(random, written)


def draw_placing(random: Random) -> Case:
    """A question to `seconds` about a small document of dates and durations."""
    net = draw_timed_net(random, random.choice((1, 2, 2, 3, 3, 4, 5)))
    return Case("placing", (b"seconds", DOCUMENT), {DOCUMENT: document_of(random, net)})


def draw_confirming(random: Random, written: Sequence[Written]) -> Case:
    """A question to `confirm`: a placing or a cycle that was written, mostly damaged, of the document or of another one."""
    one = random.choice(written)
    document = one.document if chance(random, 0.93) else random.choice(written).document
    if chance(random, 0.05):
        text = placings.draw_invented(random, len(re.findall(rb"\s(?:eiid|tid)\s*=", document)))
    else:
        text = one.text if chance(random, 0.1) else placings.draw_damaged(random, one.text)
    if chance(random, 0.02):
        document = draw_faulty(random, document)
    case = redirected(random, Case("confirming", (b"confirm", DOCUMENT, SECONDS), {DOCUMENT: document, SECONDS: text}))
    return with_devices(random, case, 0.05)


def with_devices(random: Random, case: Case, share: float) -> Case:
    """The same, where in such a share of all cases devices in memory fail, and in a tenth of it those of the machine."""
    if chance(random, share):
        return with_memory(case, draw_memory(random))
    return draw_real(random, case) if chance(random, share / 10) else case
