"""One wrong keystroke: `tml-corpus fix` writes the original, or it writes nothing, and the original is among the candidates."""

import re
import time
import unittest
from random import Random

from corpus import by_library, needs_library
from keystrokes import said, share, tally
from tml.places import Places
from tml.tags.edits import applied
from tml_corpus.asking.program import Program
from tml_corpus.check.fix import mended
from tml_corpus.check.judging import judge_document
from tml_corpus.origins.draft import tags_of_units
from tml_corpus.origins.keyboard import MEANT, TYPED, Keystrokes, undone
from tml_corpus.origins.reading import Reading
from tml_corpus.origins.restored import told

SLIPS, SEED = 500, 1

STORY = """<?xml version="1.0"?>
<TimeML>
<DCT><TIMEX3 tid="t0" type="DATE" value="1998-02-03" functionInDocument="CREATION_TIME">03/02/1998</TIMEX3></DCT>
<TITLE>Drug maker</TITLE>
<TEXT>
He <EVENT eid="e1" class="REPORTING">reported</EVENT> that it was <EVENT eid="e2" class="STATE">gone</EVENT>.
She <EVENT eid="e3" class="REPORTING">said</EVENT> she <EVENT eid="e4" class="OCCURRENCE">meets</EVENT> him.
The <EVENT eid="e5" class="OCCURRENCE">fire</EVENT> had <EVENT eid="e6" class="OCCURRENCE">ended</EVENT>.
</TEXT>
<MAKEINSTANCE eventID="e1" eiid="ei1" tense="PAST" aspect="NONE" pos="VERB" polarity="POS"/>
<MAKEINSTANCE eiid="ei2" eventID="e2" tense="PAST" aspect="NONE" pos="VERB" polarity="POS"/>
<MAKEINSTANCE eiid="ei3" eventID="e3" tense="PAST" aspect="NONE" pos="VERB" polarity="POS"/>
<MAKEINSTANCE eiid="ei4" eventID="e4" tense="PRESENT" aspect="NONE" pos="VERB" polarity="POS"/>
<MAKEINSTANCE eiid="ei5" eventID="e5" tense="NONE" aspect="NONE" pos="NOUN" polarity="POS"/>
<MAKEINSTANCE eiid="ei6" eventID="e6" tense="PAST" aspect="NONE" pos="VERB" polarity="POS"/>
<TLINK eventInstanceID="ei1" relatedToTime="t0" relType="BEFORE" lid="l1"/>
<TLINK lid="l2" eventInstanceID="ei5" relatedToEventInstance="ei6" relType="BEFORE"/>
</TimeML>
"""

ROWS = (
    ('eiid="ei1" tense', 'eiid=""ei1" tense'),
    ("gone</EVENT>", "gone<</EVENT>"),
    ("said</EVENT>", "said< /EVENT>"),
    ("meets</EVENT>", "meets<\\EVENT>"),
    ('class="REPORTING">reported', 'class="REPORTING"r>eported'),
    ("</DCT>", "</DC>T"),
    ("reported</EVENT>", "reported</EVEN>T"),
    ("<TITLE>Drug maker", "<TITLED>rug maker"),
    ('lid="l1"/>', 'lid="l1"//>'),
    ("fire</EVENT> had", "fire/<EVENT> had"),
)
"""What was meant, and what was typed."""

ODD = """<?xml version="1.0"?>
<TimeML>
<DCT><TIMEX3 tid="t0" type="DATE" value="1998-02-03" functionInDocument="CREATION_TIME">3/2</TIMEX3></DCT>
<TEXT>
<s>Of AT&amp;T (x > y) <EVENT eid="e11" class="STATE" stem="ly">lay</EVENT>, the key="v" <EVENT eid="e12" class="STATE">was</EVENT>.</s>
<!-- AT&T <EVENT> here -->
<s>Of it <EVENT eid="e13" class="STATE">stood</EVENT>.</s>
<s>Of him.</s>
<s>One <EVENT eid="e14" class="STATE">saw</EVENT>, and <ENAMEX TYPE="PERSON">Lee</ENAMEX> <EVENT eid="e15" class="STATE">had</EVENT>.</s>
</TEXT>
<MAKEINSTANCE eiid="ei1" eventID="e11" tense="PAST" aspect="NONE" pos="VERB" polarity="POS"/>
<MAKEINSTANCE eiid="ei2" eventID="e12" tense="PAST" aspect="NONE" pos="VERB" polarity="POS"/>
<TLINK lid="l1" eventInstanceID="ei1" relatedToTime="t0" relType="BEFORE" origin="USER"/>
<TLINK lid="l2" eventInstanceID="ei2" relatedToTime="t0" relType="BEFORE"/>
</TimeML>
"""
"""Signs in the text, comments with tags and signs, and attributes that TimeML does not have."""

ODD_ROWS = (
    ("<?xml", "<xml"),
    ("<TEXT>", "<TEXT"),
    ("<s>One", "<S>One"),
    ("lay</EVENT>", "lay</EVENt>"),
    ("was</EVENT>", "was</EBENT>"),
    ("AT&T <EVENT> here -->", "AT&T <EVENT> here --<"),
    ("</s>\n<s>One", "</s><\ns>One"),
    ('eid="e11" class="STATE" stem', 'eid="e11" cl ass="STATE" stem'),
    ('eid="e11"', 'eid="11"'),
    ('eventID="e11"', 'eventID="1e1"'),
    ('value="1998-02-03"', 'value=;"1998-02-03"'),
    ('relType="BEFORE" origin', 'relType-"BEFORE" origin'),
    ("</TimeML>", ",/TimeML>"),
    ("it <EVENT", "it EVENT"),
)
"""What is restored because of what the document has elsewhere, or although it has odd things."""

ALONE = (
    ("<S>A man left</S>", "<SA> man left</S>"),
    ("<S>A. Smith left</S>", "<SA>. Smith left</S>"),
    ("<TITLE>4 die</TITLE>", "<TITLE4> die</TITLE>"),
    ('<TIMEX3 tid="t1" type="DATE" value="1998">1998</TIMEX3>2 ago', '<TIMEX3 tid="t1" type="DATE" value="1998">1998</TIMEX32> ago'),
    ('w<EVENT eid="e1" class="STATE">is</EVENT>', '<wEVENT eid="e1" class="STATE">is</EVENT>'),
    ('<EVENT eid="e1" class="STATE">is</EVENT>/<SIGNAL sid="s1">or</SIGNAL>',
     '<EVENT eid="e1" class="STATE">is</EVENT/<SIGNAL sid="s1">or</SIGNAL>'),
    ('<s><EVENT eid="e1" class="STATE">is</EVENT>/</s>', '<s><EVENT eid="e1" class="STATE">is</EVENT><//s>'),
    ('<EVENT eid="e1" class="STATE" stem="be">is</EVENT>', '<EVENT eid="e1" class="STATE"s tem="be">is</EVENT>'),
    ('<EVENT eid="e1" class="STATE"  stem="be">is</EVENT>', '<EVENT eid="e1" class="STATE" s tem="be">is</EVENT>'),
    ('<TIMEX3 tid="t1" type="DATE" value="1998-1-7">then</TIMEX3>', '<TIMEX3 tid="t1" type="DATE" valu=e"1998-1-7">then</TIMEX3>'),
    ('<ENAMEX TYPE="PERSON" ID="3">Lee</ENAMEX>', "<ENAMEX TYPE='PERSON\" ID=\"3\">Lee</ENAMEX>"),
    ('<EVENT eid="e1" class="STATE" stem="go" pos="V">is</EVENT>', '<EVENT eid="e1" class="STATE" stem=\'go" pos="V">is</EVENT>'),
    ('<TIMEX3 tid="t1" type="SET" value="P1D" freq= "">1998</TIMEX3>', '<TIMEX3 tid="t1" type="SET" value="P1D" freq=b"">1998</TIMEX3>'),
    ("<P>a</P> and <P>b</P>", "<P>a/<P> and <P>b</P>"),
    ("<P>a</P>.<P>b</P>", "<P>a</P>.P>b</P>"),
    ("<P>a</P><p>b</p>", "<P>a</p><p>b</p>"),
    ("<P><P>x</P></P>", "<P><P>x</p></P>"),
    ("a<s>x</s>said", "a<s>x</>said"),
    ("<s>a b</s><s>storm</s>", "<s>a b</s><>storm</s>"),
    ('<TIMEX3 tid="t1" type="TIME">10</TIMEX3>-<TIMEX3 tid="t2" type="TIME">11</TIMEX3>',
     '<TIMEX3 tid="t1" type="TIME">10</TIMEX3><-TIMEX3 tid="t2" type="TIME">11</TIMEX3>'),
    ('<EVENT eid="e1" class="STATE" comment="a">is</EVENT>', '<EVENT eid="e1" class="STATE" commen=t"a">is</EVENT>'),
    ("<P>x</P>", "<P>xy/P>"),
    ("<P>x</P>", "<P>x<w/P>"),
    ('<EVENT eid="e1" class="STATE">is</EVENT>', '<EVENT eid="e1" class="STATE"Yis</EVENT>'),
    ('<EVENT eid="e1" class="STATE">is</EVENT>', '<EVENT eid="e12 class="STATE">is</EVENT>'),
    ('<EVENT eid="e1" class="STATE">is</EVENT>', '<EVENT eid=2e1" class="STATE">is</EVENT>'),
)  # fmt: skip
"""What was meant in a document that has nothing else, and what was typed: nothing that is meant may be lost."""

LEFT = ("He & she", "1 < 2", "&amp")
"""Texts that no keystroke explains alone: what is lost there may have been meant."""


ATTRIBUTES = " ".join(f'a{number}="v{number}"' for number in range(330))
WIDE = f'<TimeML>It <EVENT eid="e1" class="STATE" {ATTRIBUTES}>is</EVENT> here.</TimeML>'
EVENTS = "".join(f'It <EVENT eid="e{number}" class="STATE">was</EVENT> there before it was elsewhere.\n' for number in range(1600))
PARAGRAPHS = "<TimeML>" + "<P><s>a b c</s></P>\n" * 204 + "</TimeML>\n"
LONG_NAME = "doc-2024-annotator_B.exxxxxxxxxxxxxxxxxxxx-"
NAMED = (
    "<TimeML>"
    + "".join(
        f'<EVENT eid="{LONG_NAME}{number}" class="STATE">is</EVENT> <MAKEINSTANCE eiid="i{number}" eventID="{LONG_NAME}{number}"/>\n'
        for number in range(16)
    )
    + "</TimeML>"
)
HARD = (
    (PARAGRAPHS, "</P>", "<P>"),
    (NAMED, f'eventID="{LONG_NAME}3"', f'eventID="{LONG_NAME}33"'),
    (WIDE, 'a100="v100"', "a100=v100"),
    (WIDE, 'a7="v7"', 'a7"v7"'),
    (WIDE, 'a9="v9"', 'a8="v9"'),
    (WIDE, 'class="STATE"', 'class="STAE"'),
    (WIDE, "is</EVENT>", "is<EVENT>"),
    (f"<TimeML>\n{EVENTS}</TimeML>", 'e15" class="STATE">was</EVENT>', 'e15" class="STATE">was<EVENT>'),
    (f"<TimeML>\n{EVENTS}</TimeML>", '<EVENT eid="e1500"', 'EVENT eid="e1500"'),
)
"""Documents with long tags, or with many of them: what was meant, and what was typed."""

PIECES = (
    "<EVENT",
    "</EVENT",
    ">",
    "/>",
    ' a="b"',
    " c='d'",
    "=",
    '"',
    "'",
    "<!--",
    "-->",
    "--",
    "<?xml ",
    "?>",
    "<!DOCTYPE x",
    " ",
    "text",
    "é",
    "<",
)


class Stretches(unittest.TestCase):
    """Which keystrokes leave whole units, by the automaton and by reading each text."""

    def test_drawn_stretches(self) -> None:
        random = Random(5)
        whole = 0
        for _ in range(100):
            text = "".join(random.choice(PIECES) for _ in range(random.randrange(1, 9)))
            reading = Reading(text)
            for keys in undone(text, 0, len(text), TYPED):
                found = reading.outcomes(0, keys, len(text)).whole
                for one in keys.texts:
                    after = text[: keys.start] + one + text[keys.end :]
                    is_whole = tags_of_units(after) is not None
                    # The automaton takes any declaration and any doctype.
                    self.assertTrue((one in found) == is_whole or (one in found and re.search(r"<\?|<!(?!--)", after)), (text, keys, one))
                    whole += is_whole
        self.assertGreater(whole, 3_000)

    def test_texts_of_keystrokes(self) -> None:
        place = STORY.index("<EVENT")
        [lost, struck, neighbour, exchanged] = [keys for keys in undone(STORY, place, place, TYPED) if keys.start == place]
        self.assertEqual((lost.texts, struck.texts, exchanged.texts), (TYPED, ("",), ("E<",)))
        self.assertEqual(neighbour, Keystrokes(neighbour.slip, place, place + 1, MEANT["<"]))
        self.assertLessEqual({",", "M", "K"}, {*neighbour.texts})


@needs_library
class OneKeystroke(unittest.TestCase):
    program: Program

    @classmethod
    def setUpClass(cls) -> None:
        cls.program = by_library()

    def test_slips_in_all_styles(self) -> None:
        found = tally(self.program, SLIPS, SEED)
        counts = found.all()
        self.assertEqual([one for one in found.notable if one.startswith(("damage", "other"))], [])
        self.assertGreaterEqual(share(counts, "restored"), 0.87, counts)
        asked = ("question with the original", "question without it", "no candidate")
        self.assertGreaterEqual(share(counts, asked[0], of=asked), 0.99, found.notable)
        seconds = sorted(found.seconds)
        self.assertLess(seconds[len(seconds) // 2], 0.1)
        self.assertLess(seconds[-1], 1.5)

    def test_rows(self) -> None:
        for meant, typed in ROWS:
            with self.subTest(typed):
                self.assertEqual(self.program.check(STORY.encode()).status, 0)
                self.assertIn(meant, STORY)
                fixed = mended(self.program, STORY.replace(meant, typed, 1).encode())
                shown = [said(applied(fixed.after, [edit]).decode()) for edit in fixed.candidates]
                self.assertIn(said(STORY), [said(fixed.after.decode())] if fixed.changes else shown)

    def test_rows_of_an_odd_document(self) -> None:
        self.assertEqual(self.program.check(ODD.encode()).status, 0)
        for meant, typed in ODD_ROWS:
            with self.subTest(typed):
                self.assertIn(meant, ODD)
                fixed = mended(self.program, ODD.replace(meant, typed, 1).encode())
                self.assertEqual(fixed.after.decode(), ODD, fixed.candidates)

    def test_nothing_is_lost(self) -> None:
        for meant, typed in ALONE:
            with self.subTest(typed):
                clean, faulty = (f"<TimeML>\nIt {text}.\n</TimeML>\n" for text in (meant, typed))
                self.assertEqual(self.program.check(clean.encode()).status, 0)
                fixed = mended(self.program, faulty.encode())
                self.assertIn(said(fixed.after.decode()), (said(clean), said(faulty)))

    def test_what_is_said_of_rows(self) -> None:
        for meant, typed in ROWS:
            document = STORY.replace(meant, typed, 1).encode()
            with self.subTest(typed):
                [fault] = judge_document(self.program, "d.xml", document, True, 0).faults
                fixed = mended(self.program, document)
                keystrokes = [told(document, edit, Places(document)) for edit in fixed.candidates]
                if fixed.changes:
                    self.assertTrue(fault.text.startswith("one wrong keystroke: "), fault.text)
                else:
                    self.assertTrue(any(one in fault.text for one in keystrokes), fault.text)
                    self.assertIn("or one wrong keystroke: ", fault.text)

    def test_texts_that_may_have_been_meant(self) -> None:
        for text in LEFT:
            with self.subTest(text):
                document = STORY.replace("He <EVENT", f"{text} <EVENT", 1).encode()
                fixed = mended(self.program, document)
                self.assertEqual((fixed.after, fixed.changes), (document, []))
                self.assertIsNotNone(fixed.left)

    def test_long_tags_and_many_tags(self) -> None:
        for text, meant, typed in HARD:
            with self.subTest(typed):
                begun = time.process_time()
                fixed = mended(self.program, text.replace(meant, typed, 1).encode())
                self.assertLess(time.process_time() - begun, 3)
                self.assertIn(said(fixed.after.decode()), (said(text), said(text.replace(meant, typed, 1))))

    def test_clean_documents_are_left(self) -> None:
        self.assertEqual(mended(self.program, STORY.encode()).changes, [])


if __name__ == "__main__":
    unittest.main()
