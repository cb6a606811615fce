"""The page tml.html: the pane in which a document is written, and the picture of a timeline."""

from __future__ import annotations

import json
import re
import unittest
from pathlib import Path

from corpus import INSTANCE, TOP, document, text_at
from looking import broken_words, contrasts, darkened, resized
from picture_reader import Picture
from reference import Outcome
from reference.judge import expected
from test_pictures import Truth, closure
from test_web_page import HOSTILE, PAGE, PORT, RATES, PageTest
from tml.explaining.faults import SENTENCES

FERRY = Path(TOP, "samples", "ferry.xml")
WRONG = '<TimeML>\nIt <EVENT eid="e1">rained</EVENT>.\n</TimeML>\n'
RIGHT = WRONG.replace('"e1"', '"e1" class="STATE"')
VERDICT = "document.querySelector('#written-verdict').textContent"


class PaneTest(PageTest):
    """A page whose pane is used."""

    def opened(self) -> None:
        """Opens the pane, and waits for the verdict on what it begins with."""
        self.click("#write summary")
        self.verdict("Accepted")

    def verdict(self, begins: str) -> None:
        """Waits until the verdict on what is written begins so."""
        self.until(f"{VERDICT}.startsWith({json.dumps(begins)})")

    def type(self, text: str) -> None:
        """Types a text in the place of what is there, as a keyboard does."""
        self.value("document.querySelector('#written').focus(); document.querySelector('#written').select()")
        self.browser.ask("Input.insertText", text=text)

    def written(self) -> str:
        """The text in the pane."""
        return str(self.value("document.querySelector('#written').value"))


class Written(PaneTest):
    """What is typed, and what becomes of it."""

    def test_a_fault_is_named_and_then_fixed(self) -> None:
        self.opened()
        self.type(WRONG)
        self.verdict("Fault 10 MissingAttribute, line 2, column 4")
        self.assertEqual(self.text("#written-verdict .rule"), SENTENCES[10].replace("`", ""))
        self.assertEqual(self.text("#written-place .source mark"), '<EVENT eid="e1">')
        self.assertEqual(self.texts(".marks mark"), ['<EVENT eid="e1">'])
        inside = (
            "(() => { const [one, field] = ['.marks mark', '#written'].map((name) => document.querySelector(name).getBoundingClientRect());"
        )
        self.assertTrue(
            self.value(f"{inside} return one.left > field.left && one.bottom < field.bottom && one.top > field.top + 20; }})()")
        )
        self.click("#go-to-fault")
        self.assertEqual(self.value("document.activeElement.id"), "written")
        self.browser.ask("Input.insertText", text='<EVENT eid="e1" class="STATE">')
        self.verdict("Accepted: the document keeps the rules.It has 1 event.")
        self.assertEqual((self.texts(".marks mark"), self.written()), ([], RIGHT))

    def test_it_begins_with_a_small_document_or_with_that_which_is_open(self) -> None:
        self.opened()
        self.assertIn("It has 2 events, 2 instances, 1 TLINK.", self.text("#written-verdict"))
        self.click("#write summary")
        self.choose(RATES)
        self.judged()
        self.click("#write summary")
        self.until(f"document.querySelector('#written').value === {json.dumps(RATES.read_text(encoding='utf-8'))}")

    def test_what_was_typed_is_replaced_only_if_somebody_says_so(self) -> None:
        self.choose(RATES)
        self.judged()
        self.opened()
        self.type(RIGHT)
        self.click("#edit")
        self.until("document.activeElement.id === 'replace-written'")
        self.assertEqual(self.written(), RIGHT)
        self.click("#replace-written")
        self.until(f"document.querySelector('#written').value === {json.dumps(RATES.read_text(encoding='utf-8'))}")
        self.assertEqual(self.value("document.activeElement.id"), "written")

    def test_a_newer_text_supersedes_an_older_one(self) -> None:
        self.opened()
        self.value(
            f"""window.seen = []; new MutationObserver(() => seen.push({VERDICT})).observe(
            document.querySelector('#written-verdict'), {{ childList: true, subtree: true, characterData: true }})"""
        )
        long = json.dumps(RIGHT.replace("It", 60_000 * "It was late. "))
        self.value(
            f"""(() => {{ const field = document.querySelector('#written');
            const write = (text) => {{ field.value = text; field.dispatchEvent(new Event('input')); }};
            write({long}); setTimeout(() => write({json.dumps(WRONG)}), 255); }})()"""
        )
        self.verdict("Fault 10")
        seen = list(self.value("seen"))
        self.assertEqual([one for one in seen if not one.startswith("Fault 10")], [])

    def test_a_text_is_saved_and_taken(self) -> None:
        for name, line_end in (("rain.tml", "\r\n"), ("old.tml", "\r")):
            lines = RIGHT.replace("\n", line_end)
            self.browser.open(str(PAGE))
            self.choose(self.write(f"given/{name}", lines))
            self.judged()
            self.opened()
            self.click("#save-written")
            self.assertEqual(self.saved(name), lines.encode())
        self.type("\ufeff" + WRONG)
        self.verdict("Fault 10 MissingAttribute, line 2, column 4")
        self.click("#take-written")
        self.judged(2)
        self.assertEqual(self.texts("#verdicts .name")[1], "written text 1")
        self.assertEqual(self.texts("#verdicts tbody td:nth-child(3)"), ["", "10 MissingAttribute"])

    def test_what_cannot_be_edited(self) -> None:
        for name, content, said in (
            ("a.xml", b"<TimeML>\xff</TimeML>", "The document is not in UTF-8, so this pane would change it."),
            ("c.xml", b"<TimeML>\r\n\n</TimeML>", "The document has different line ends, so this pane would change it."),
            ("b.xml", b"<TimeML>" + (1 << 20) * b" ", "The document is longer than 1 MiB, which is too long for this pane."),
        ):
            self.choose(self.write(name, content))
            self.until(f"[...document.querySelectorAll('#verdicts .name, #document h2')].some((one) => one.textContent === '{name}')")
            self.value(f"[...document.querySelectorAll('#verdicts .name')].find((one) => one.textContent === '{name}')?.click()")
            self.until(f"document.querySelector('#document h2').textContent === '{name}' && document.querySelector('#edit')")
            self.click("#edit")
            self.verdict(said)

    def test_a_hostile_text(self) -> None:
        self.opened()
        self.type("<TimeML>\u05d0\u05d1 \u65e5\u672c\u8a9e \U0001f600<" + HOSTILE)
        self.verdict("Fault ")
        self.assertEqual(self.value("document.querySelectorAll('main img, main script').length"), 0)
        self.assertNotRegex(self.text("#written-place"), "[\u202e\u2066\u0007\ufeff]")
        marked = self.value("document.querySelector('.marks > div').firstChild.textContent")
        self.assertTrue(self.written().startswith(marked))


class Drawn(PaneTest):
    """The picture of a timeline."""

    def picture(self, path: Path) -> Picture:
        """The picture of a document."""
        self.choose(path)
        self.judged()
        self.answer("matrix")
        self.until("document.querySelector('.picture svg')")
        return Picture.read(self.value("new XMLSerializer().serializeToString(document.querySelector('.picture svg'))"))

    def test_as_many_bars_as_intervals_and_the_same_in_sentences(self) -> None:
        picture = self.picture(FERRY)
        self.assertEqual({bar.name for bar in picture.bars}, {"t0", "t1", *(f"ei{number}" for number in range(1, 8))})
        self.assertEqual(len(picture.whole_bars()), 9)
        described = "document.getElementById(document.querySelector('.picture svg').getAttribute('aria-describedby'))"
        said = list(self.value(f"[...{described}.children].map((one) => one.textContent)"))
        self.assertEqual(len(said), 11)
        self.assertIn("left (ei1), an event: starts after the start of Monday (t1); ends before the end of Monday (t1).", said)
        self.assertEqual(said[-2:], ["planned (ei8), an event: nothing says when.", "raised (ei9), an event: nothing says when."])

    def test_it_states_what_follows_and_no_more(self) -> None:
        content = FERRY.read_bytes()
        answer = expected([b"matrix", b"d"], {b"d": content})
        assert isinstance(answer, Outcome)
        truth, stated = Truth(answer.text.decode()), list(self.picture(FERRY).statements())
        self.assertEqual([said for said in stated if not truth.confirms(said)], [])
        weak, strict = closure(stated, {point for pair in truth.never_after for point in pair})
        self.assertEqual((truth.never_after - weak, truth.before - strict), (set(), set()))

    def test_a_clash_and_a_document_without_intervals(self) -> None:
        self.choose(PORT)
        self.judged()
        self.assertIn("these 4 links cannot all be true", self.answer("matrix"))
        self.browser.open(self.browser.value("location.pathname"))
        self.choose(self.write("none.xml", document("")))
        self.judged()
        self.assertIn("there is nothing to draw", self.answer("matrix"))

    def test_it_is_stopped_and_drawn_again(self) -> None:
        self.choose(FERRY)
        self.judged()
        self.value("document.querySelector('[data-command=matrix]').click(); document.querySelector('#answer .stop').click()")
        self.until("document.querySelector('#answer').textContent === 'Stopped.'")
        self.assertEqual(len(self.picture(FERRY).whole_bars()), 9)

    def test_a_hostile_text_of_an_interval(self) -> None:
        escaped = HOSTILE.replace("\a", "").replace("&", "&amp;").replace("<", "&lt;").replace('"', "&quot;")
        event = f'<EVENT eid="e1" class="STATE">{escaped}</EVENT>{INSTANCE}<TIMEX3 tid="t1" type="DATE" value="1998">a</TIMEX3>'
        link = '<TLINK eventInstanceID="i1" relatedToTime="t1" relType="DURING"/>'
        picture = self.picture(self.write("d.xml", document(event + link)))
        self.assertEqual({bar.name for bar in picture.bars}, {"i1", "t1"})
        self.assertTrue(any("<img" in text for *_, text in picture.texts), picture.texts)
        self.assertEqual(self.value("document.querySelectorAll('img, main script').length"), 0)
        self.assertNotRegex(self.value("document.querySelector('main').textContent"), "[\u202e\u2066\u0007\ufeff]")


class Seen(PaneTest):
    """By whom the pane and the picture can be used."""

    def test_looks_and_names(self) -> None:
        self.choose(FERRY)
        self.judged()
        self.answer("matrix")
        self.opened()
        self.type(WRONG)
        self.verdict("Fault 10")
        for width in (1280, 400):
            resized(self.browser, width)
            self.until(f"document.querySelector('.picture svg')?.clientWidth <= {width}")
            self.assertLessEqual(self.value("document.documentElement.scrollWidth"), width)
            self.assertEqual(broken_words(self.browser, "h1, h2, h3, button, label, summary"), [])
            for is_dark in (False, True):
                darkened(self.browser, is_dark)
                found, weak = contrasts(self.browser)
                self.assertEqual((found > 8, weak), (True, []))
        tree = self.browser.ask("Accessibility.getFullAXTree")["nodes"]
        said = [(one["role"]["value"], one.get("name", {}).get("value", "")) for one in tree if not one.get("ignored")]
        named = ("button", "textbox", "region", "image", "img")
        self.assertEqual([role for role, name in said if role in named and not name], [])
        self.assertIn(("textbox", "The text of the document, which is checked at each pause"), said)
        self.assertTrue({("image", "Timeline of 9 intervals"), ("img", "Timeline of 9 intervals")} & set(said))
        self.assertIn("status", [role for role, _ in said])

    def test_by_keyboard_alone(self) -> None:
        self.opened()
        self.type(WRONG)
        self.verdict("Fault 10")
        found = []
        for _ in range(6):
            found.append(self.value("document.activeElement.id || document.activeElement.className"))
            self.browser.press("Tab", 9)
        self.assertEqual(found[:5], ["written", "source", "go-to-fault", "save-written", "take-written"])

    def test_a_picture_is_reached_and_scrolled(self) -> None:
        events = "".join(
            f'<EVENT eid="e{number}" class="STATE">w{number}</EVENT><MAKEINSTANCE eiid="i{number}" eventID="e{number}"/>'
            for number in range(80)
        )
        related = [(number, "BEFORE", number + 1) for number in range(59)]
        related += [(number, "INCLUDES", other) for number in range(60, 80) for other in (0, 59)]
        links = "".join(
            f'<TLINK eventInstanceID="i{one}" relatedToEventInstance="i{other}" relType="{relation}"/>' for one, relation, other in related
        )
        resized(self.browser, 400)
        self.choose(self.write("long.xml", f"<TimeML>{events}{links}</TimeML>"))
        self.judged()
        self.answer("matrix")
        self.until("document.querySelector('.picture svg')")
        self.assertLessEqual(self.value("document.documentElement.scrollWidth"), 400)
        size = "(({ scrollWidth, clientWidth, scrollHeight, clientHeight }) => [scrollWidth > clientWidth, scrollHeight > clientHeight])"
        self.assertEqual(self.value(f"{size}(document.querySelector('.picture'))"), [True, True])
        self.value("document.querySelector('#edit').focus()")
        self.browser.press("Tab", 9)
        self.assertEqual(self.value("document.activeElement.className"), "picture")


class Sources(unittest.TestCase):
    """What the sources of the page say."""

    def test_each_kind_is_said_and_labelled(self) -> None:
        from tml_corpus.timeline.rows import KINDS

        for name in ("answers.mjs", "picture.mjs"):
            found = re.search(r"const KINDS = \{(.*?)\}", text_at("web", name), re.DOTALL)
            assert found is not None
            self.assertEqual(set(re.findall(r"(\w+): ", found[1])), {*KINDS, "unasserted"}, name)


if __name__ == "__main__":
    unittest.main()
