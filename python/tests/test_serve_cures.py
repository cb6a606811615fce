"""Each cure that a message spells out has a quick fix in `tml-corpus serve`, or here is why not: of the list of messages, word for word."""

from __future__ import annotations

import os
import re
import unittest
from functools import cache
from typing import Any

import messages
import test_mistakes
from advice import judged, search_once
from corpus import EVENT, INSTANCE, TOP, CorpusTest, document
from serving import state_of
from tml_corpus.check.placed import PlacedFault, PlacedWarning
from tml_corpus.serve.actions import actions
from tml_corpus.serve.document import OpenDocument

TABLES: Any = test_mistakes
SOURCES = re.compile(r"python/src/(?:tml/explaining/(?!faults|telling)|tml_corpus/lint/(?!warnings))\w+\.py")
"""The sources of what is said of faults and of what is suspect; other modules say what to do with files, programs and words."""

CURE = re.compile(
    r"\b(?:write|delete|add|move|remove|put|split|exchange|keep|restore|type|change|correct|mend|leave out|did you mean|lacks|should|turns"
    r"|deletes|renames|takes such|is meant|needs|whether)\b"
)
"""The words of a cure."""

OTHER = EVENT.replace("e1", "e2").replace(">x<", ">y<")
TIME = '<TIMEX3 tid="t1" type="DATE" value="1998">x</TIMEX3>'
LINK = '<TLINK lid="l1" eventInstanceID="i1" relatedToTime="t1" relType="BEFORE"/>'
LINKED = EVENT + INSTANCE + TIME + LINK
NUMBERED = "".join(EVENT.replace("e1", f"e{number}").replace(">x<", f">{word}<") for word, number in enumerate((1, 2, 3, 4, 4, 6, 7, 8, 9)))
DECLARED = '<?xml version="1.0"?>'

EXAMPLES = {
    "it says nothing about the order: `tml-edit --drop-links VAGUE` deletes such links": document(LINKED.replace("BEFORE", "VAGUE")),
    "it says nothing about the order: `tml-edit --drop-links NONE` deletes such links": document(LINKED.replace("BEFORE", "NONE")),
    "it says nothing about the order: `tml-edit --drop-links UNKNOWN` deletes such links": document(LINKED.replace("BEFORE", "UNKNOWN")),
    "{}: delete one of the two": document(EVENT.replace("eid", 'eid="e1" eid')),
    "{} is missing, and {} is not a known attribute of {}; did you mean {}?{}": document(EVENT.replace("eid", "eId")),
    "{}; did you mean {}, the only one without an instance?": document(EVENT + '<MAKEINSTANCE eiid="ei1"/>'),
    "has a space at its beginning or end: write {}": document(EVENT.replace("e1", "  e1")),
    "is not an identifier: write {} without #": document(EVENT + INSTANCE.replace("e1", "#e1")),
    ": write {}, since {}": document(EVENT.replace("e1", "e1 e2") + INSTANCE),
    "delete {}, since no tag has this identifier": document(LINKED.replace("relType", 'timeID="t9" relType')),
    "&{}; is an entity that nothing declares: write what it stands for, or &amp;{}; for the sign &": document("a &foo; b"),
    "&{} lacks its ;, or the sign & comes before {}{}: write &{};{} or &amp;{}{}": document("a &ampb c"),
    "&{} lacks its ;: write &{};": document("a &amp b"),
    "this comment has no end: write --> after it": document("<!-- a\nb"),
    "<!{} is not read: delete it, up to its >": document("<!ELEMENT x>a"),
    "write <!DOCTYPE for <!{}": "<!doctype TimeML>\n" + document("a"),
    "a doctype with a subset of its own is not read: delete all from [ to ]": '<!DOCTYPE TimeML [ <!ENTITY x "y"> ]>\n' + document("a"),
    "a processing instruction is not read: delete <?{} .. ?>": document("<?x y?>a"),
    "no space is allowed after </: write </{}>": document("<s>a</ s>"),
    "this end tag has no >: write </{}>": document("<s>a</s\n<s>b</s>"),
    "an end tag has only its name: write </{}>": document("<s>b</s xy>"),
    "{}, which nobody sees, is here: write a space for it": document(EVENT.replace(" eid", "\u00a0eid")),
    "the file ends with a <: write &lt;, or see whether its end was lost": document("a") + "<",
    "< appears twice: delete one of the two": document("<" + EVENT),
    "no space is allowed after <: write <{}": document(EVENT.replace("<EVENT", "< EVENT")),
    "this / is not followed by >: write /> at the end of <{}>": document(EVENT + INSTANCE.replace("/>", "/\n")),
    "no {} is allowed between attributes: delete it": document(EVENT.replace(" class", ", class")),
    "one quote too many after {}: delete it": document(EVENT.replace(" class", '" class')),
    '{} has no value: write {}="..", or delete it': document('<s x class="a">b</s>'),
    'the value of {} has no opening quote: write {}="{}"': document(EVENT.replace('"e1', "e1")),
    'the value of {} has no quotes: write {}="{}"': document(EVENT.replace('"e1"', "e1")),
    "<{}> has {} in its name, which nobody sees: write {}": document(EVENT.replace("<EV", "<EV\u200b")),
    "<{}> is not known, and the root has to be {}: `tml-edit --rename {}={}` renames it": "<Report>word</Report>",
    "<{}> is not known: `tml-edit --unwrap {}` takes such tags out and leaves what they hold": document("<XYZ>a</XYZ>"),
    "<{}> opened here crosses </{}> at {}: exchange </{}> and the </{}> after it": document(EVENT.replace(">x<", "><s>x<") + "</s>"),
    "</{}> does not close {}: write </{}>": document(EVENT.replace("/EVENT", "/TIMEX3")),
    "</{}> appears twice: delete one of the two": document(EVENT + "</EVENT>"),
    "</{}> appears twice: the root is already closed, so delete one of the two": document("a") + "</TimeML>",
    "its start tag was lost: write {} before {}": document("one two</EVENT>"),
    "<{}> here is not a start tag, since it has no attributes: write </{}> for it": document(EVENT.replace("/EVENT", "EVENT")),
    "<{}> is never closed: write </{}> after what it holds{}": document("<s>" + EVENT + INSTANCE),
    "the document is empty: write <{}> .. </{}>": "",
    "the document has no tag: write <{}> before its text and </{}> after it": "<!-- a -->",
    "<?xml ..?> has to come first: delete what is before it ({})": " \n" + DECLARED + document("a"),
    "<?xml ..?> has to come first: move it to the beginning, before the comment": "<!-- a -->\n" + DECLARED + document("a"),
    "<?xml ..?> has to come first: delete this one": document(DECLARED + "a"),
    "{}, which is invisible, is outside <{}>, where nothing may be: delete it": "\u200b" + document("a"),
    "there is text after </{}>: delete it or move </{}> after it": document("word") + " more\n",
    "there is text before <{}>: delete it or move it inside": "more " + document("word"),
    "the document has no <{}>: write <{}> before its text and </{}> after it": "a <s>b</s>",
    "the root has to be <{}>: write <{}> before <{}> and </{}> at the end": "<s>b</s>",
    "{}: does a second document begin here? If so, split it off; otherwise delete the tag": document(EVENT + "<TimeML>a"),
    "{}, so it appears twice: delete one of the two{}": "<TimeML>" + document("a"),
    "<{}> holds {}, and has to be empty: move it before this tag": document(EVENT + INSTANCE.replace("/>", ">a b</MAKEINSTANCE>")),
    "it is inside that one, so delete one of the two, and leave the words": document(EVENT.replace("x", EVENT)),
    "it is there word for word, so delete it here": document(EVENT + INSTANCE + "\n" + INSTANCE),
    "write {}, the next one, here": document(NUMBERED),
    "delete one of the two if it was pasted; if not, the {} at {} means one of them, and the other one needs another identifier, "
    "such as {}":
        document(EVENT + OTHER.replace("e2", "e1") + INSTANCE),
    "write another one here, such as {}": document(LINKED + LINK.replace("BEFORE", "AFTER")),
    "delete it if it was pasted, and if not write another one here, such as {}": document(EVENT + OTHER.replace("e2", "e1")),
    "one of the two is meant to be one of {}, to which tags refer and which no tag has":
        document(EVENT + OTHER.replace("e2", "e1") + INSTANCE.replace("e1", "e8") + INSTANCE.replace("i1", "i2").replace("e1", "e9")),
    "in one of the two write {}": document(EVENT + OTHER.replace("e2", "e1") + INSTANCE.replace("e1", "e8")),
    'it was probably lost: add <MAKEINSTANCE eiid="{}" eventID=".."/> for one of the events without an instance, {}':
        document(EVENT + OTHER + TIME + LINK.replace("i1", "i9")),
    "{} without an instance: add {}": document(EVENT + TIME + LINK.replace("i1", "e1")),
    "{}; did you mean {}, which has no instance?": document(EVENT + OTHER + INSTANCE + '<MAKEINSTANCE eiid="i2" eventID="i2"/>'),
    "{} is in no link, so nothing orders it: add a TLINK": document(EVENT + OTHER + INSTANCE + '<MAKEINSTANCE eiid="i2" eventID="e2"/>'),
    "this {} is inside the {} at {}: see which words each belongs to, and whether one is too many":
        document(EVENT.replace("x", TIME)),
    "{}; did you mean {}? ({} suggests it rather than {})": document(TIME.replace("1998", "09/03/1998").replace(">x<", ">Monday<")),
    'value="{}" is {}, and a DURATION has none; did you mean {}?': document(TIME.replace("DATE", "DURATION")),
    'value="{}" is a duration, so this {} has no date; did you mean type="DURATION"?': document(TIME.replace("1998", "P3D")),
    "write it without the parts of a second": document(TIME.replace("1998", "1998-01-08T18:30:00.5")),
}  # fmt: skip
"""A document with each message that the tables of slips do not have: at its place there is something to do."""

BECAUSE = {
    "type {} again": "an editor sends characters, and never bytes that are none",
    "type the character again": "an editor sends characters, and never bytes that are none",
    "the file looks like UTF-16: `iconv -f utf-16 -t utf-8` turns it into UTF-8; change the name of the encoding in its first line too":
        "an editor sends characters, whatever the encoding of the file",
    "{} not UTF-8: the file looks like {}; `tml-corpus fix` turns it into UTF-8":
        "an editor sends characters, whatever the encoding of the file",
    "{} is not the number of a character: write &# and 1 to 7 digits and ;, or &#x and 1 to 6 digits and ;":
        "which character is meant is not known",
    "this CDATA section has no ]]>, and CDATA is not read: write its text, with &lt; and &amp; for < and &":
        "where the section ends is not known",
    "write <?xml, a space and what is declared": "what is declared is not known",
    "the name of this tag is missing: write it after <": "which name is meant is not known",
    '{} has no value: write {}=".."': "which value is meant is not known; completion offers them",
    "<{}> is never closed: see whether the end of the file was lost": "what was lost is not known",
    "<{}> opened here is one of {} that are open at {}, and tml takes {} open tags: write the end tags": "where each ends is not known",
    "{}, and the document has no {}: add one": "around which words is not known; they can be selected and annotated",
    "the document has {} MAKEINSTANCE and TIMEX3, and tml takes {}: split it here or before": "a document is divided where its text allows",
    "the document has {} TLINK, and tml takes {}: split it, or leave out links that follow from others (`redundant-links` names them)":
        "tml judges none of its links, so it is not known which follow",
    "{}: it is a range; write the date that is meant, or a DURATION with beginPoint and endPoint": "which date is meant is not known",
}  # fmt: skip
"""Why there is no quick fix."""


def setUpModule() -> None:
    search_once()


@cache
def cures() -> frozenset[str]:
    """The messages on documents that spell out a cure."""
    found, source = set(), ""
    for line in messages.listed().splitlines():
        source = source if line.startswith(" ") else line
        if line.startswith(" ") and SOURCES.fullmatch(source) and CURE.search(line):
            found.add(line.strip())
    return frozenset(found)


@cache
def form_of(message: str) -> re.Pattern[str]:
    """What a message looks like with values in it."""
    return re.compile(".*?".join(map(re.escape, message.split("{}"))), re.DOTALL)


def has_fix(state: OpenDocument, said: PlacedFault | PlacedWarning) -> bool:
    """Whether an editor can do something about what is said of a document."""
    return bool(actions(state, (said.mark.start.offset, said.mark.end.offset), ["quickfix"]))


def all_said(state: OpenDocument) -> list[PlacedFault | PlacedWarning]:
    """All that is said of a document."""
    judgement = state.judgement(further=True)
    return [*judgement.faults, *judgement.warnings]


class Cures(CorpusTest):
    def test_each_cure_has_a_quick_fix_or_a_reason(self) -> None:
        with open(os.path.join(TOP, "samples", "rates.xml"), "rb") as file:
            right = file.read()
        fixed = set[str]()
        for meant, slip, _ in TABLES.rows():
            state = state_of(right.replace(TABLES.raw(meant), TABLES.raw(slip), 1))
            judgement = judged(state.program, state.text)
            first: PlacedFault | PlacedWarning = judgement.faults[0] if judgement.faults else judgement.warnings[0]
            fixed.update(one for one in cures() - fixed if form_of(one).search(first.text) and has_fix(state, first))
        self.assertEqual(sorted(fixed & set(BECAUSE)), [], "has a quick fix, and a reason why there is none")
        self.assertEqual(sorted(cures() - fixed - set(BECAUSE) - set(EXAMPLES)), [], "has neither a quick fix nor a reason why not")
        self.assertEqual(sorted({*EXAMPLES, *BECAUSE} - cures()), [], "is no message that spells out a cure")
        self.assertEqual(sorted(set(EXAMPLES) & set(BECAUSE)), [])

    def test_each_example_has_its_message_and_a_quick_fix(self) -> None:
        for message, text in EXAMPLES.items():
            with self.subTest(message):
                state = state_of(text)
                said = [one for one in all_said(state) if form_of(message).search(one.text)]
                self.assertTrue(said, [one.text for one in all_said(state)])
                self.assertTrue(any(has_fix(state, one) for one in said))


if __name__ == "__main__":
    unittest.main()
