"""The page tml.html in a browser, opened from the disk: what is given to it, what it says, what it saves, and who can use it."""

from __future__ import annotations

import csv
import io
import json
import re
import shutil
import socket
import tempfile
import time
import unittest
from pathlib import Path
from random import Random
from typing import Any
from unittest import mock

from browser import needs_browser
from building import page
from building.linking import CannotMake
from corpus import EVENT, INSTANCE, TOO_LONG, TOP, document, match_in, text_at
from looking import broken_words, contrasts, darkened, opened, resized
from processes import PATIENCE
from test_web import FOLDER, needs_module, needs_node, node
from tml.explaining.faults import SENTENCES
from tml.places import Places
from tml.statuses import FAULT_NAMES, INTERVAL_LIMIT, LINK_LIMIT

PAGE = FOLDER / page.NAME
MOST = 800_000
"""How many bytes the page may have."""

PORT, RATES = (Path(TOP, "samples", name) for name in ("port.xml", "rates.xml"))
WAITING = "new Promise((done) => { const look = () => (EXPRESSION ? done() : setTimeout(look, 5)); look(); })"
TIMES = "".join(f'<TIMEX3 tid="t{number}" type="SET"/>' for number in range(INTERVAL_LIMIT + 1))
LINK = '<TLINK timeID="t0" relatedToTime="t0" relType="DURING"/>'
MANY = {
    "TooDeep": "<TimeML>" + 32 * "<P>",
    "TooManyIntervals": document(TIMES),
    "TooManyLinks": document('<TIMEX3 tid="t0" type="SET"/>' + (LINK_LIMIT + 1) * LINK),
}
"""The least documents that are too long for a page of documentation."""

HOSTILE = "</script><img src=x onerror=alert(1)>\"'&\u202e\u2066\u0007\u05d0\ufeff=1"
"""A text that is markup, turns what is around it around, and rings."""

needs_page = unittest.skipUnless(PAGE.is_file(), f"no page in {FOLDER}: tools/web/build makes it, or name its folder by TML_WEB=")


class Made(unittest.TestCase):
    """The page as a file."""

    def test_the_same_bytes_twice(self) -> None:
        module = bytes(range(256)) * 1000
        self.assertEqual(page.page_of(module), page.page_of(module))

    @needs_module
    @needs_page
    def test_it_is_that_of_its_sources_and_small(self) -> None:
        self.assertEqual(PAGE.read_bytes(), page.page_of((FOLDER / "tml.wasm").read_bytes()), f"{FOLDER} is to be made anew")
        self.assertLess(PAGE.stat().st_size, MOST)

    def test_its_policy_allows_nothing_but_itself(self) -> None:
        made = page.page_of(b"").decode()
        policy = match_in(r'<meta http-equiv="Content-Security-Policy" content="([^"]*)">', made)[1]
        allowed = dict(part.split(" ", 1) for part in policy.split("; "))
        self.assertEqual(allowed["default-src"], "'none'")
        self.assertEqual({name for name in allowed if name.endswith("-src")}, {"default-src", "script-src", "style-src", "worker-src"})
        self.assertNotRegex(policy, "unsafe-inline|'unsafe-eval'|http|data:|[*]")
        self.assertNotRegex(made.replace(page.EXAMPLE.read_text(encoding="utf-8"), ""), "https?://|//[a-z]+[.]")

    def test_no_script_makes_markup_of_a_text(self) -> None:
        for source in Path(TOP, "web").glob("*.mjs"):
            text = source.read_text(encoding="utf-8")
            self.assertNotRegex(
                text, r"innerHTML|outerHTML|insertAdjacentHTML|document\.write|\beval\b|new Function|DOMParser", source.name
            )

    def test_each_reason_of_a_refusal_is_put_into_words(self) -> None:
        rows = re.findall(r"^\|[^|]*\| `([A-Z]\w+)(?: [A-Z])*` \|", text_at("docs/DEFINITIONS.md"), re.MULTILINE)
        table = match_in(r"const REFUSALS = \{(.*?)\n\};", text_at("web/answers.mjs"), re.DOTALL)[1]
        self.assertEqual(set(re.findall(r"^  (\w+): ", table, re.MULTILINE)), set(rows))

    def test_what_cannot_be_put_together(self) -> None:
        rows = [
            ({"worker.mjs": "export const a = 1;\nfunction a() {}\n"}, "the same name twice: a"),
            (
                {"worker.mjs": 'import { b } from "./b.mjs";\nconst a = "</SCRIPT>";\n', "b.mjs": "export const b = 1;\n"},
                "ends it too early",
            ),
            ({"page.html": "<html></html>"}, "needs exactly one line"),
        ]
        for changed, said in rows:
            with self.subTest(said), tempfile.TemporaryDirectory() as held:
                folder = shutil.copytree(page.SOURCES, Path(held, "web"))
                for name, text in changed.items():
                    (folder / name).write_text(text, encoding="utf-8")
                with mock.patch.object(page, "SOURCES", folder), self.assertRaisesRegex(CannotMake, said):
                    page.page_of(b"")


@needs_node
class Counted(unittest.TestCase):
    """Lines and columns, against those of the companions."""

    def test_places_are_those_of_the_companions(self) -> None:
        drawn = [drawn_bytes(Random(f"places/{number}")) for number in range(60)]
        script = "\n".join(
            [
                f'import {{ Places }} from {json.dumps(Path(TOP, "web/places.mjs").as_uri())};',
                'import { readFileSync } from "node:fs";',
                "for (const given of JSON.parse(readFileSync(process.argv[2]))) {",
                "  const [bytes, found] = [Uint8Array.from(given), []];",
                "  const places = new Places(bytes);",
                "  for (let at = 0; at <= bytes.length; at += 1 + (at >> 5)) found.push([places.place(at).line, places.place(at).column]);",
                "  console.log(JSON.stringify(found));",
                "}",
            ]
        )
        with tempfile.TemporaryDirectory() as held:
            Path(held, "script.mjs").write_text(script, encoding="utf-8")
            Path(held, "given.json").write_text(json.dumps([list(one) for one in drawn]), encoding="utf-8")
            said = node(Path(held, "script.mjs"), Path(held, "given.json")).splitlines()
        for content, line in zip(drawn, said, strict=True):
            self.assertEqual(json.loads(line), places_of(content), content[:200])


def drawn_bytes(random: Random) -> bytes:
    """Some bytes with lines and with characters of all lengths, not all of them whole; some are longer than a block of places."""
    parts = (
        b"a",
        b"\n",
        b"\r",
        b"\r\n",
        "é".encode(),
        "語".encode(),
        "😀".encode(),
        b"\xef\xbb\xbf",
        b"\xe2\x82",
        b"\xff",
        b"\xed\xa0\x80",
        b"x" * 50,
    )
    chosen = random.sample(parts, random.randint(1, len(parts)))
    return b"".join(random.choices(chosen, k=random.choice((0, 1, 5, 40, 3000))))


def places_of(content: bytes) -> list[list[int]]:
    """The lines and columns that the companions find, at some offsets."""
    places, at, found = Places(content), 0, []
    while at <= len(content):
        found.append([places.place(at).line, places.place(at).column])
        at += 1 + (at >> 5)
    return found


@needs_browser
@needs_page
class PageTest(unittest.TestCase):
    """A page of its own for each test, with a folder of its own."""

    def setUp(self) -> None:
        held = tempfile.TemporaryDirectory()
        self.addCleanup(held.cleanup)
        self.folder = Path(held.name)
        self.browser = self.enterContext(opened())
        self.browser.ask("Browser.setDownloadBehavior", behavior="allow", downloadPath=held.name, browserContextId=self.browser.context)
        self.browser.open(str(PAGE))

    def tearDown(self) -> None:
        self.assertEqual(self.browser.said, [])

    def value(self, expression: str) -> Any:
        return self.browser.value(expression)

    def until(self, expression: str) -> None:
        """Waits until an expression of the page is true."""
        self.browser.ask("Runtime.evaluate", expression=WAITING.replace("EXPRESSION", expression), awaitPromise=True)

    def text(self, selector: str) -> str:
        """What is seen of an element."""
        return str(self.value(f"document.querySelector({json.dumps(selector)}).innerText"))

    def texts(self, selector: str) -> list[str]:
        """The texts of all such elements."""
        return list(self.value(f"[...document.querySelectorAll({json.dumps(selector)})].map((one) => one.textContent)"))

    def click(self, selector: str) -> None:
        """Has an element do what it does if somebody clicks on it."""
        self.value(f"document.querySelector({json.dumps(selector)}).click()")

    def choose(self, *paths: Path, field: str = "#files") -> None:
        """Chooses files."""
        root = self.browser.ask("DOM.getDocument")["root"]["nodeId"]
        chosen = self.browser.ask("DOM.querySelector", nodeId=root, selector=field)["nodeId"]
        self.browser.ask("DOM.setFileInputFiles", nodeId=chosen, files=list(map(str, paths)))

    def write(self, name: str, content: str | bytes) -> Path:
        """A file in the folder of the test."""
        path = self.folder / name
        path.parent.mkdir(parents=True, exist_ok=True)
        path.write_bytes(content if isinstance(content, bytes) else content.encode())
        return path

    def judged(self, count: int = 1) -> None:
        """Waits until so many documents are judged, and one that is alone is shown."""
        shown = (
            "document.querySelector('#document p.verdict')"
            if count == 1
            else f"document.querySelectorAll('#verdicts .name').length === {count}"
        )
        summed = f"document.querySelector('#summary').textContent.startsWith('{count} document')"
        self.until(f"document.querySelector('#checking').hidden && {summed} && {shown}")

    def answer(self, command: str, *names: str) -> str:
        """The answer to a query."""
        for field, name in zip(("first", "relation", "second"), names, strict=False):
            self.value(f"document.querySelector('#{field}').value = {json.dumps(name)}")
        self.click(f"[data-command={command}]")
        self.until("document.querySelector('#answer h3')")
        return self.text("#answer")

    def saved(self, name: str) -> bytes:
        """What was saved by a name. The browser makes an empty file before it has the content."""
        path, last = self.folder / name, time.monotonic() + PATIENCE
        while not path.is_file() or path.stat().st_size == 0:
            self.assertLess(time.monotonic(), last, f"{name} was not saved")
            time.sleep(0.01)
        return path.read_bytes()


class Given(PageTest):
    """What is dropped, chosen and pasted, and the table of it."""

    def test_a_choice_without_network(self) -> None:
        self.choose(PORT)
        self.judged()
        self.assertEqual(self.text("#document h2"), "port.xml")
        self.assertIn("Accepted", self.text("#document p.verdict"))
        self.assertIn("10 events, 10 instances, 3 times, 3 signals, 13 TLINKs", self.text("#document"))
        self.assertEqual(self.text("#summary"), "1 document: 1 accepted.")
        self.assertFalse(self.value("document.querySelector('#table').checkVisibility()"))

    def test_neither_the_page_nor_its_worker_can_send(self) -> None:
        with socket.create_server(("127.0.0.1", 0)) as server:
            address = f"http://127.0.0.1:{server.getsockname()[1]}/"
            sent = f"fetch('{address}').then(() => 'sent', () => 'refused')"
            worker = f"{sent}.then((said) => postMessage(said))"
            expression = f"""Promise.all([{sent}, new Promise((done) => {{
              const worker = new Worker(URL.createObjectURL(new Blob([{json.dumps(worker)}])));
              worker.onmessage = ({{ data }}) => done(data);
            }})])"""
            answer = self.browser.ask("Runtime.evaluate", expression=expression, awaitPromise=True, returnByValue=True)
            server.settimeout(0)
            self.assertRaises(BlockingIOError, server.accept)
        self.assertEqual(answer["result"]["value"], ["refused", "refused"])
        self.assertTrue(all("Content Security Policy" in one.replace("-", " ") for one in self.browser.said), self.browser.said)
        self.browser.said.clear()

    def test_a_drop_of_a_folder_and_a_file(self) -> None:
        self.write("corpus/inner/a.xml", PORT.read_bytes())
        for name in ("corpus/b.TML", "corpus/.hidden/c.xml", "corpus/notes.txt", "d.txt"):
            self.write(name, document(EVENT))
        data = {"items": [], "files": [str(self.folder / "corpus"), str(self.folder / "d.txt")], "dragOperationsMask": 1}
        for kind in ("dragEnter", "dragOver", "drop"):
            self.browser.ask("Input.dispatchDragEvent", type=kind, x=300, y=200, data=data)
        self.judged(3)
        self.assertEqual(self.texts("#verdicts .name"), ["corpus/b.TML", "corpus/inner/a.xml", "d.txt"])

    def test_a_paste(self) -> None:
        text = "<TimeML>\n\ud83d\ude00 <EVENT/></TimeML>"
        self.value(
            f"""(() => {{ const given = new DataTransfer(); given.setData("text/plain", {json.dumps(text)});
            document.body.dispatchEvent(new ClipboardEvent("paste", {{ clipboardData: given, bubbles: true }})); }})()"""
        )
        self.judged()
        self.assertEqual(self.text("#document p.verdict"), "Fault 10 MissingAttribute, line 2, column 3")
        self.value(f"document.querySelector('#written').value = {json.dumps('<TimeML>' + chr(0xD800) + '</TimeML>')}")
        self.click("#take-written")
        self.judged(2)
        self.assertEqual(self.texts("#verdicts .name"), ["pasted text 1", "written text 2 (with U+FFFD for half characters)"])
        self.assertEqual(self.texts("#verdicts tbody td:nth-child(2)"), ["fault", "accepted"])
        self.value(
            """(() => { const given = new DataTransfer(); given.items.add(new File(["<TimeML/>"], "copied.xml"));
            document.body.dispatchEvent(new ClipboardEvent("paste", { clipboardData: given, bubbles: true })); })()"""
        )
        self.judged(3)
        self.assertEqual(self.texts("#verdicts .name")[0], "copied.xml")

    def test_a_folder_in_a_table(self) -> None:
        for number in range(130):
            self.write(f"corpus/{number}.xml", document(EVENT * (number % 2)))
        self.write("corpus/=1+1.xml", "")
        self.choose(self.folder / "corpus", field="#folder")
        self.until("document.querySelector('#table .buttons').innerText.includes('1 to 100 of 131')")
        self.until("document.querySelector('#checking').hidden")
        self.assertEqual(self.text("#summary"), "131 documents: 130 accepted, 1 with a fault.")
        self.assertEqual(self.texts("#verdicts .name")[1:4], ["corpus/0.xml", "corpus/1.xml", "corpus/2.xml"])
        self.click("#verdicts thead th:nth-child(7) button")
        self.click("#verdicts thead th:nth-child(7) button")
        self.assertEqual(self.value("document.querySelector('#verdicts thead th:nth-child(7)').ariaSort"), "descending")
        self.assertEqual(self.texts("#verdicts tbody td:nth-child(7)")[:2], ["1", "1"])
        self.value("document.querySelector('#search').focus()")
        self.browser.ask("Input.insertText", text="UNCLOSED")
        self.assertEqual(self.texts("#verdicts .name"), ["corpus/=1+1.xml"])
        self.click_text("Save as JSON")
        rows = json.loads(self.saved("verdicts.json"))
        self.assertEqual([(row["document"], row["fault"], row["bytes"]) for row in rows], [("corpus/=1+1.xml", "6 Unclosed", 0)])

    def test_csv_is_no_formula(self) -> None:
        names = ("=1+1.xml", 'a,"b".xml', "-2.xml")
        self.choose(*(self.write(name, "") for name in names))
        self.judged(3)
        self.click_text("Save as CSV")
        rows = list(csv.DictReader(io.StringIO(self.saved("verdicts.csv").decode())))
        self.assertEqual(sorted(row["document"] for row in rows), sorted(["'=1+1.xml", 'a,"b".xml', "'-2.xml"]))
        self.assertEqual({(row["verdict"], row["fault"], row["line"], row["column"]) for row in rows}, {("fault", "6 Unclosed", "1", "1")})

    def test_what_tml_does_not_take(self) -> None:
        rows = [
            (TOO_LONG, "longer than 4,194,304 bytes"),
            (b"", "Fault 6 Unclosed, line 1, column 1"),
            (b"\n\xff", "Fault 1 NotUtf8, line 2, column 1"),
        ]
        for number, (content, said) in enumerate(rows):
            with self.subTest(said):
                self.browser.open(str(PAGE))
                self.choose(self.write(f"{number}.xml", content))
                self.judged()
                self.assertIn(said, self.text("#document p.verdict"))
        self.browser.open(str(PAGE))
        self.write("empty/notes.txt", "")
        self.choose(self.folder / "empty", field="#folder")
        self.until("document.querySelector('#summary').textContent.startsWith('This folder has no documents')")

    def click_text(self, text: str) -> None:
        """Clicks on the button with a text."""
        self.value(f"[...document.querySelectorAll('button')].find((one) => one.textContent === {json.dumps(text)}).click()")


class Said(PageTest):
    """Faults, queries and evidence in words."""

    def test_each_fault_by_its_sentence(self) -> None:
        smallest = re.findall(r"^Smallest: `([^`\n]+)`\s\(`fault \d+ (\w+) \d+`\)", text_at("docs/FAULTS.md"), re.MULTILINE)
        self.write("NotUtf8.xml", b"\xff")
        self.write("Unclosed.xml", "")
        for name, text in [(name, text) for text, name in smallest] + list(MANY.items()):
            self.write(f"{name}.xml", text)
        self.choose(*(self.folder / f"{name}.xml" for name in FAULT_NAMES))
        self.judged(17)
        self.assertEqual(
            set(self.texts("#verdicts tbody td:nth-child(3)")), {f"{number} {name}" for number, name in enumerate(FAULT_NAMES, 1)}
        )
        for number, name in enumerate(FAULT_NAMES, 1):
            with self.subTest(name):
                self.value(f"[...document.querySelectorAll('#verdicts .name')].find((one) => one.textContent === '{name}.xml').click()")
                self.until(f"document.querySelector('#document p.verdict')?.textContent.startsWith('Fault {number} {name}, line ')")
                self.assertEqual(self.text("#document .rule"), SENTENCES[number].replace("`", ""))

    def test_the_place_of_a_fault(self) -> None:
        self.choose(self.write("d.xml", RATES.read_bytes().replace(b'eventInstanceID="ei2"', b'eventInstanceID="e2"')))
        self.judged()
        self.assertEqual(self.text("#document p.verdict"), "Fault 15 UnknownReference, line 8, column 1")
        self.assertEqual(self.text(".source mark"), '<TLINK lid="l2" eventInstanceID="e2" relatedToTime="t1" relType="IS_INCLUDED"/>')
        self.assertEqual([line.strip() for line in self.texts(".source .number")], ["6", "7", "8", "9"])

    def test_a_clash_in_words(self) -> None:
        self.choose(PORT)
        self.judged()
        self.answer("solve")
        self.assertEqual(
            self.texts("#answer ul li"),
            [
                "closed IS_INCLUDED Monday (l5: ei4 IS_INCLUDED t1)",
                "waited DURING closed (l6: ei5 DURING ei4)",
                "reopened IS_INCLUDED Wednesday (l11: ei9 IS_INCLUDED t2)",
                "waited IBEFORE reopened (l12: ei5 IBEFORE ei9)",
            ],
        )
        steps = self.texts("#answer ol li")
        self.assertEqual(len(steps), 5)
        calendar = (
            "The end of Monday (t1) is before the start of Wednesday (t2), since by the calendar Monday ends at 1998-03-10T00:00:00 and "
        )
        self.assertIn(calendar + "Wednesday starts at 1998-03-11T00:00:00.", steps)
        self.assertIn(
            "The start of reopened (ei9) is not after the end of waited (ei5), since waited IBEFORE reopened (l12: ei5 IBEFORE ei9).", steps
        )
        marks = ["Monday l5", "closed l5 l6", "waited l6 l12", "reopened l11 l12", "Wednesday l11"]
        self.assertEqual(self.texts("#answer .prose mark"), marks)
        self.assertEqual([line.strip() for line in self.texts("#answer .source .number")], ["23", "24", "29", "30"])

    def test_queries(self) -> None:
        self.choose(RATES)
        self.judged()
        self.assertIn("Wednesday (t1)\texactly\t1998-01-07T00:00:00\t1998-01-08T00:00:00", self.answer("dates"))
        self.assertIn("l2\tspoke (ei2)\tIS_INCLUDED\tWednesday (t1)\t8", self.answer("links"))
        self.assertIn("0\t4\tWednesday (t1)\n2\t3\tspoke (ei2)", self.answer("solve"))
        self.assertIn("No link follows", self.answer("reduce"))
        self.assertIn("Wednesday (t1)\t1998-01-07T00:00:00\t1998-01-08T00:00:00\t1 d", self.answer("seconds"))
        self.assertIn("fell (ei1) BEFORE Jan 8 (t0) holds in every timeline that fits", self.answer("ask", "ei1", "BEFORE", "t0"))
        self.assertEqual(len(self.texts("#answer ol li")), 4)
        self.assertIn("fell (ei1) AFTER Wednesday (t1) does not follow", self.answer("ask", "ei1", "AFTER", "t1"))
        self.assertRegex(self.text("#answer"), r"In this timeline: fell \(ei1\) (?!AFTER)[A-Z_]+ Wednesday \(t1\)")
        self.assertIn("5 relations are possible between fell (ei1) and Wednesday (t1)", self.answer("possible", "ei1", "BEFORE", "t1"))
        self.assertEqual(len(self.texts("#answer details table")), 5)

    def test_redundant_links_and_a_cycle_of_seconds(self) -> None:
        more = RATES.read_text(encoding="utf-8").replace(
            "</TimeML>", '<TLINK lid="l3" eventInstanceID="ei1" relatedToTime="t0" relType="BEFORE"/></TimeML>'
        )
        self.choose(self.write("more.xml", more))
        self.judged()
        self.answer("reduce")
        self.assertEqual(self.texts("#answer li"), ["fell BEFORE Jan 8 (l3: ei1 BEFORE t0)"])
        self.browser.open(str(PAGE))
        self.choose(self.write("late.xml", text_at("samples/bridge.xml").replace("P2D", "P3D")))
        self.judged()
        self.assertIn("There is no placing in whole seconds", self.answer("seconds"))
        self.assertRegex("\n".join(self.texts("#answer ol li")), r"\(t\d\) lasts no shorter than its value P3D says\.")

    def test_evidence_is_saved_and_checked(self) -> None:
        self.choose(PORT)
        self.judged()
        self.answer("solve")
        self.value("[...document.querySelectorAll('#answer button')].at(-1).click()")
        evidence = self.saved("port.evidence")
        self.assertTrue(evidence.startswith(b"tml-evidence 2\nclaims 1\nclash 4\n"))
        self.choose(self.folder / "port.evidence")
        self.until("document.querySelector('#evidence-list li')?.textContent.includes('accepted')")
        self.assertIn("These links cannot all be true", self.text("#answer"))
        wrong = self.write("wrong.evidence", evidence.replace(b"cite 4\n", b"cite 3\n"))
        self.choose(wrong)
        self.until("document.querySelectorAll('#evidence-list li')[1]?.textContent.includes('refused')")
        self.assertIn("Refused: ", self.text("#answer"))

    def test_evidence_comes_before_its_document_or_with_it(self) -> None:
        rates = [Path(TOP, "samples", name) for name in ("rates.timeline", "rates.evidence")]
        self.choose(*rates)
        self.until("document.querySelectorAll('#evidence-list li').length === 2")
        self.assertIn("choose its document too", self.text("#evidence-list"))
        self.choose(RATES, PORT)
        self.until("document.querySelector('#evidence-list').textContent.split('accepted, for rates.xml').length === 3")
        self.assertEqual(self.text("#document h2"), "rates.xml")
        self.browser.open(str(PAGE))
        self.choose(rates[0], RATES)
        self.until("document.querySelector('#evidence-list').textContent.includes('accepted, for rates.xml')")
        self.assertEqual(self.texts("#answer li"), ["Some timeline fits the document."])


class Used(PageTest):
    """By whom the page can be used, with what texts, and that it never waits."""

    def test_a_query_and_a_check_are_stopped(self) -> None:
        self.choose(PORT)
        self.judged()
        self.value("document.querySelector('[data-command=solve]').click(); document.querySelector('#answer .stop').click()")
        self.until("document.querySelector('#answer').textContent === 'Stopped.'")
        self.assertIn("A clash", self.answer("solve"))
        self.value(
            """document.querySelector('#written').value = '<TimeML/>'; document.querySelector('#take-written').click();
        document.querySelector('#stop-checking').click()"""
        )
        self.until("!document.querySelector('#stopped').hidden")
        self.assertEqual(self.text("#stopped span"), "Stopped: 1 document not checked.")
        self.assertEqual(self.value("document.activeElement.id"), "go-on")
        self.click("#go-on")
        self.judged(2)
        self.assertEqual(self.text("#summary"), "2 documents: 2 accepted.")

    def test_a_browser_that_cannot_run_the_module(self) -> None:
        path = self.write("other.html", page.page_of(b"no module"))
        self.browser.open(str(path))
        self.choose(PORT)
        self.until("!document.querySelector('#stopped').hidden")
        self.assertRegex(self.text("#stopped span"), r"^this browser cannot run tml \(.*\): 0 documents not checked\.$")
        self.assertFalse(self.value("document.querySelector('#go-on').checkVisibility()"))
        self.until("document.querySelector('#summary').textContent === '1 document: 1 not judged.'")

    def test_a_browser_whose_workers_cannot_read_files(self) -> None:
        begin = '<script type="text/plain" id="worker">"use strict";'
        failing = 'Blob.prototype.arrayBuffer = () => Promise.reject(new DOMException("", "NotReadableError"));'
        content = PAGE.read_text(encoding="utf-8")
        self.assertEqual(content.count(begin), 1)
        self.browser.open(str(self.write("other.html", content.replace(begin, begin + failing))))
        self.choose(PORT)
        self.judged()
        self.assertIn("Accepted", self.text("#document p.verdict"))
        self.write("port.evidence", Path(TOP, "samples", "rates.evidence").read_bytes())
        self.choose(*(self.write(f"{number}.xml", document(EVENT)) for number in range(40)), self.folder / "port.evidence")
        self.judged(41)
        self.assertEqual(self.text("#summary"), "41 documents: 41 accepted.")
        self.until("document.querySelector('#evidence-list').textContent.includes('refused, for port.xml')")

    def test_hostile_names_and_texts(self) -> None:
        events = '<EVENT eid="e1" class="STATE">{0}</EVENT><TIMEX3 tid="t1" type="SET" value="{0}"/>'
        escaped = HOSTILE.replace("&", "&amp;").replace("<", "&lt;").replace('"', "&quot;")
        links = '<TLINK lid="l1" eventInstanceID="i1" relatedToTime="t1" relType="BEFORE"/>' * 2
        text = document(events.format(escaped) + INSTANCE + links.replace("l1", "l2", 1) + links[:0])
        text = text.replace('relType="BEFORE"', 'relType="AFTER"', 1)
        self.value(
            f"""(() => {{ const given = new DataTransfer();
            for (const text of {json.dumps([text, "<" + HOSTILE])}) given.items.add(new File([text], {json.dumps("a/" + HOSTILE)}));
            dispatchEvent(new DragEvent("drop", {{ dataTransfer: given, bubbles: true }})); }})()"""
        )
        self.judged(2)
        for place in (1, 2):
            self.click(f"#verdicts tbody tr:nth-child({place}) .name")
            self.until("document.querySelector('#document p.verdict')")
            if self.value("document.querySelector('[data-command=solve]') !== null"):
                self.assertIn("A clash", self.answer("solve"))
                self.assertIn("<img src=x onerror=alert(1)>", self.text("#answer .prose mark bdi"))
            self.assertEqual(self.value("document.querySelectorAll('img, main script').length"), 0)
            self.assertNotRegex(self.value("document.body.textContent"), "[\u202e\u2066\u0007\ufeff]")
        self.assertEqual(self.value("document.querySelectorAll('#verdicts .name > bdi').length"), 2)

    def test_by_keyboard_alone(self) -> None:
        for number in range(3):
            self.write(f"{number}.xml", document(EVENT))
        self.choose(*sorted(self.folder.glob("*.xml")))
        self.judged(3)
        found = []
        while self.value("document.activeElement.className") != "name":
            self.browser.press("Tab", 9)
            found.append(self.value("document.activeElement.id || document.activeElement.textContent"))
        names = ["choose-files", "choose-folder", "example", "Write or paste a document", "search", "verdict"]
        self.assertEqual(list(dict.fromkeys(name for name in found if name in names)), names)
        self.browser.press("ArrowDown", 40)
        self.browser.press("End", 35)
        self.assertEqual(self.value("document.activeElement.textContent"), "2.xml")
        self.browser.ask("Input.dispatchKeyEvent", type="keyDown", key="Enter", windowsVirtualKeyCode=13, text="\r")
        self.until("document.querySelector('#document p.verdict')")
        self.assertEqual(self.value("document.activeElement.id"), "document-title")
        self.browser.press("Tab", 9)
        self.assertEqual(self.value("document.activeElement.dataset.command"), "dates")

    def test_looks_and_names(self) -> None:
        self.choose(PORT, self.write("f.xml", document("<EVENT/>")))
        self.judged(2)
        for place, mark in ((1, ".source mark"), (2, "[data-command=solve]")):
            self.click(f"#verdicts tbody tr:nth-child({place}) .name")
            self.until(f"document.querySelector({json.dumps(mark)})")
            if place == 2:
                self.answer("solve")
            for width in (1280, 400):
                resized(self.browser, width)
                self.assertLessEqual(self.value("document.documentElement.scrollWidth"), width)
                self.assertEqual(broken_words(self.browser, "h1, h2, button, label, th"), [])
                for is_dark in (False, True):
                    darkened(self.browser, is_dark)
                    found, weak = contrasts(self.browser)
                    self.assertEqual((found > 8, weak), (True, []))
        tree = self.browser.ask("Accessibility.getFullAXTree")["nodes"]
        said = [(one["role"]["value"], one.get("name", {}).get("value", "")) for one in tree if not one.get("ignored")]
        named = ("button", "textbox", "searchbox", "combobox", "region", "table", "main", "progressbar", "group")
        self.assertEqual([role for role, name in said if role in named and not name and role not in ("main", "group")], [])
        for one in (("region", "Answer"), ("combobox", "Relation"), ("button", "f.xml"), ("searchbox", "Name or fault has")):
            self.assertIn(one, said)


if __name__ == "__main__":
    unittest.main()
