"""tml for browsers and Node: how it is made, that it answers as the program does, with what memory, and what its parts in C do."""

from __future__ import annotations

import json
import os
import re
import shlex
import shutil
import subprocess
import tempfile
import unittest
from base64 import b64encode
from collections.abc import Iterator
from pathlib import Path
from random import Random

from browser import Browser, needs_browser
from building import web
from building.compiling import MODULE
from copied_tool import Copy, clang, handing
from corpus import TESTS, TML, TOOLS, TOP, match_in, of_type, text_at
from differential.cases import Case, Output, Real
from differential.devices import draw_real
from differential.drawing import draw_case
from differential.libraries import Modules, obstacle
from differential.programs import Programs
from processes import BARE
from reference import Outcome
from tml.statuses import DOCUMENT_LIMIT, TmlStatus

BUILD = os.path.join(TOOLS, "web", "build")
FOLDER = Path(os.environ.get("TML_WEB") or Path(TOP, "crates/tml_c/out/web")).absolute()
CLASHES = Path(TOP, "samples/port.xml").read_bytes()
EVENTS = b'<EVENT eid="e1" class="STATE">x</EVENT>'
CASES = 250
OF_PROGRAM = 60
PAGES = (70, 90, 150, 400, 2000)
"""Limits of memory, in pages of 64 KiB, of which the stack and the data take 65."""
NO_MEMORY = Outcome(TmlStatus.NO_MEMORY, b"")

needs_node = unittest.skipUnless(shutil.which("node"), "not installed: nodejs")
needs_binaryen = unittest.skipUnless(shutil.which("wasm-opt"), "not installed: binaryen")
needs_kit = unittest.skipUnless(shutil.which("rt"), "no rt")
needs_program = unittest.skipUnless(os.access(TML, os.X_OK), f"no program {TML}: build it as README.md says, or name one by TML=PROGRAM")
needs_module = unittest.skipUnless(
    (FOLDER / "tml.wasm").is_file(), f"no module in {FOLDER}: tools/web/build makes it, or name its folder by TML_WEB="
)


def node(*words: str | Path) -> str:
    """What a program of Node prints."""
    return subprocess.run(["node", *words], capture_output=True, text=True, check=True, timeout=300).stdout


def begun(answer: object) -> tuple[int, str]:
    """The status of an answer, and its first line."""
    status, text = of_type(list, answer)
    return status, text.splitlines()[0]


def document_of(length: int) -> bytes:
    """A document of so many bytes."""
    return b"<TimeML>" + (b"Words in a row. " * (length // 16))[: length - 17] + b"</TimeML>"


class Needed(unittest.TestCase):
    def test_what_is_missing(self) -> None:
        words, variables = [*BARE, BUILD, "folder"], {"PATH": "", "PYTHONDONTWRITEBYTECODE": "1"}
        done = subprocess.run(words, env=variables, capture_output=True, text=True, check=False, timeout=60)
        self.assertEqual((done.returncode, done.stdout, done.stderr), (1, "", "build: not installed: rt, wasm-opt\n"))

    def test_help_has_an_example(self) -> None:
        done = subprocess.run([*BARE, BUILD, "--help"], capture_output=True, text=True, check=True, timeout=60)
        self.assertIn("Example", done.stdout)

    def test_types_are_of_what_is_there(self) -> None:
        exported = r"^export (?:declare )?(?:async )?(?:function|const) (\w+)"
        names = [set(re.findall(exported, text_at("web", file), re.MULTILINE)) for file in web.HANDED_OUT]
        self.assertEqual(names[0], names[1])
        statuses = re.findall(r"^ +([A-Z_]+): (\d),?;?$", text_at("web/tml.d.mts"), re.MULTILINE)
        self.assertEqual(statuses, [(status.name, str(status.value)) for status in TmlStatus])


@needs_kit
@needs_binaryen
@unittest.skipUnless(MODULE.is_file(), f"no module {MODULE}: tools/library/build or tools/web/build makes it")
class Build(unittest.TestCase):
    """A copy of the tool, with a kit whose prover hands the module to the compiler."""

    def setUp(self) -> None:
        self.copy = Copy()
        self.addCleanup(self.copy.held.cleanup)

    def build(self, prover: str) -> tuple[int, list[str], list[str]]:
        """The status, what was printed, and what was said on standard error, if the prover is this script."""
        return self.copy.build("tools/web/build", prover)

    @needs_module
    def test_the_same_bytes_at_another_place(self) -> None:
        made, names = self.copy.top / "made/here", ("tml.wasm", "tml.mjs", "tml.d.mts", "tml.html")
        status, said, told = self.build(handing(MODULE))
        self.assertEqual((status, said, told), (0, [f"{made}/{name}" for name in names], []))
        for name in names:
            self.assertEqual((made / name).read_bytes(), (FOLDER / name).read_bytes(), f"{FOLDER} is to be made anew: {name}")

    def test_what_is_not_proved(self) -> None:
        status, said, told = self.build("echo not proved; exit 1")
        self.assertEqual((status, said), (1, []))
        self.assertEqual(told, ["not proved", "build: the crate tml_c was not built: rattle ended with status 1"])

    def test_a_prover_that_compiles_nothing(self) -> None:
        self.assertEqual(self.build("exit 0"), (1, [], ["build: rattle has handed no module to its compiler"]))

    def test_another_module(self) -> None:
        other = self.copy.top / "other.bc"
        subprocess.run([clang(), "-c", "-emit-llvm", "-x", "c", os.devnull, "-o", other], check=True)
        status, said, told = self.build(handing(other))
        self.assertEqual((status, said, len(told)), (1, [], 1))
        self.assertRegex(told[0], "^build: the module of rattle has no ")

    def test_a_library_that_was_changed(self) -> None:
        made = self.copy.top / "crates/low/out/rlib/low.rlib"
        os.utime(self.copy.top / "crates/low/src/lib.rt", (made.stat().st_mtime + 1,) * 2)
        self.assertEqual(self.build("exit 0"), (1, [], ["build: crates/low was changed after `rt ci`, which has to run again"]))


@needs_kit
@needs_binaryen
@needs_node
class Parts(unittest.TestCase):
    """The parts in C, called in WebAssembly as the proved code calls them."""

    module: Path
    folder: Path

    @classmethod
    def setUpClass(cls) -> None:
        held = tempfile.TemporaryDirectory(prefix="web-parts-")
        cls.addClassCleanup(held.cleanup)
        cls.folder = Path(held.name)
        sources = [Path(TESTS, "web_parts.c"), *(web.SOURCES / f"{part}.c" for part in web.PARTS)]
        exports = ("wrong_of_heap", "refusals_of_heap", "wrong_of_memory", "wrong_of_shuffle")
        cls.module = cls.folder / "parts.wasm"
        cls.module.write_bytes(web.lowered(web.linked(clang(), cls.folder, sources, exports)))

    def answers(self, *flags: str, calls: str) -> list[int]:
        """What calls of the module answer, an expression of a list, in which `x` has the functions."""
        script = self.folder / "script.mjs"
        script.write_text(
            'import { readFileSync } from "node:fs";\n'
            "const { instance: { exports: x } } = await WebAssembly.instantiate(readFileSync(process.argv[2]), {});\n"
            f"console.log({calls}.map(String).join());\n",
            encoding="utf-8",
        )
        return list(map(int, node(*flags, script, self.module).split(",")))

    def test_memory(self) -> None:
        self.assertEqual(self.answers(calls="[1n, 2n, 3n].map(x.wrong_of_memory)"), [0, 0, 0])

    def test_shuffle(self) -> None:
        self.assertEqual(self.answers(calls="[1n, 2n, 3n].map(x.wrong_of_shuffle)"), [0, 0, 0])

    def test_heap(self) -> None:
        self.assertEqual(self.answers(calls="[6n, 10n, 14n, 18n].map((most) => x.wrong_of_heap(most, 20000n, most))"), [0, 0, 0, 0])

    def test_heap_without_memory(self) -> None:
        calls = "[10n, 14n, 16n].flatMap((most) => [x.wrong_of_heap(most, 20000n, most), x.refusals_of_heap()])"
        answers = self.answers("--wasm-max-mem-pages=75", calls=calls)
        self.assertEqual(answers[::2], [0, 0, 0])
        self.assertGreater(answers[-1], 100)


@needs_module
@needs_node
class Module(unittest.TestCase):
    """What the module answers to a program of JavaScript."""

    said: dict[str, object]

    @classmethod
    def setUpClass(cls) -> None:
        cls.said = dict(json.loads(line) for line in node(Path(TESTS, "module_caller.mjs"), FOLDER).splitlines())

    def test_what_it_asks_and_shows(self) -> None:
        self.assertEqual(self.said["imports"], [])
        self.assertEqual(set(of_type(list, self.said["exports"])), {"memory", *web.EXPORTS})
        self.assertEqual(self.said["limits"], [DOCUMENT_LIMIT, 16 * DOCUMENT_LIMIT])

    def test_documents(self) -> None:
        accepted = self.said["a document"]
        self.assertEqual(begun(accepted), (0, "accepted"))
        for name in ("an answer is the caller's", "a word in bytes", "a file in shared memory", "a file within a buffer"):
            self.assertEqual(self.said[name], accepted, name)
        self.assertEqual(self.said["after the end of the stack"], accepted)
        self.assertIn(self.said["at the end of the stack"], ("RangeError", accepted))
        self.assertEqual(self.said["a file in words of 16 bits"], [1, "fault 7 Misplaced 0\n"])

    def test_words(self) -> None:
        for name in ("no words", "no words and a file", "another name"):
            self.assertEqual(self.said[name], [4, "read fault\n"], name)
        names = ("a word that is not Unicode", "a word that is not UTF-8", "a zero byte in a word", "a zero byte at the end")
        for name in names:
            self.assertEqual(begun(self.said[name]), (3, "usage:"), name)
        self.assertEqual(self.said["a word that is a pair of surrogates"], [8, "unknown X\n"])

    def test_the_example(self) -> None:
        example = match_in(r"```js\n(.*?)```", text_at("docs/WEB.md"), re.DOTALL)[1]
        with tempfile.TemporaryDirectory() as held:
            folder = shutil.copytree(FOLDER, Path(held, "web"))
            (folder / "example.mjs").write_text(example, encoding="utf-8")
            done = subprocess.run(["node", "example.mjs"], cwd=folder, capture_output=True, text=True, check=True, timeout=60)
        self.assertEqual(done.stdout.splitlines()[0], "true accepted")

    def test_misuse(self) -> None:
        for name in ("a word that is a number", "words that are no list", "a file that is a text", "a file that is a buffer"):
            self.assertEqual(self.said[name], "TypeError", name)
        self.assertEqual(self.said["bytes that are no module"], "CompileError")


PAGE = """<!DOCTYPE html>
<meta charset="utf-8">
<meta http-equiv="Content-Security-Policy"
  content="default-src 'none'; script-src 'unsafe-inline' 'wasm-unsafe-eval' blob:; worker-src blob:">
<title>tml</title>
"""
ANSWERS = """(async (script, module, file) => {
  const blob = (text) => URL.createObjectURL(new Blob([text], { type: "text/javascript" }));
  const bytes = (text) => Uint8Array.from(atob(text), (one) => one.charCodeAt(0));
  const asked = async (load, [module, file]) => {
    const { status, text } = (await load(module)).run(["solve", "first"], file);
    return [status, new TextDecoder().decode(text)];
  };
  const question = [bytes(module), bytes(file)];
  // A page from the disk can import a blob, and its worker cannot.
  const plain = script.split("// The program, in Node.")[0].replaceAll(/^export /gm, "");
  const worker = new Worker(blob(`${plain}; onmessage = async ({ data }) => postMessage(await (${asked})(load, data).catch(String))`));
  const inWorker = new Promise((answered) => {
    worker.onmessage = ({ data }) => answered(data);
    worker.onerror = ({ message }) => answered(message);
  });
  worker.postMessage(question);
  return [await asked((await import(blob(script))).load, question), await inWorker];
})"""
"""What the module answers in a page and in its worker, both without a server."""


@needs_browser
@needs_module
@needs_program
class InBrowser(unittest.TestCase):
    """The module in a page that is opened from the disk and may fetch nothing."""

    def test_page_and_worker(self) -> None:
        given = [
            text_at(str(FOLDER / "tml.mjs")),
            *(b64encode(content).decode() for content in ((FOLDER / "tml.wasm").read_bytes(), CLASHES)),
        ]
        done = subprocess.run([TML, "solve", "-"], input=CLASHES, capture_output=True, check=False, timeout=60)
        with tempfile.TemporaryDirectory() as folder, Browser() as browser:
            page = Path(folder, "page.html")
            page.write_text(PAGE, encoding="utf-8")
            browser.open(str(page))
            expression = f"{ANSWERS}({', '.join(map(json.dumps, given))})"
            answer = browser.ask("Runtime.evaluate", expression=expression, awaitPromise=True, returnByValue=True)
            self.assertEqual(browser.said, [])
        self.assertEqual(answer["result"].get("value"), [[done.returncode, done.stdout.decode()]] * 2, answer)


def hostile() -> Iterator[Case]:
    """Words and files of lengths that are hard."""
    lengths = (0, DOCUMENT_LIMIT, DOCUMENT_LIMIT + 1, 3 * DOCUMENT_LIMIT)
    for command in (b"check", b"spans", b"canon"):
        for length in lengths:
            yield Case(f"{length} bytes", (command, b"d"), {b"d": document_of(length) if length else b""})
    for length in (0, 1 << 20, 16 * DOCUMENT_LIMIT, 16 * DOCUMENT_LIMIT + 1):
        yield Case(f"evidence of {length} bytes", (b"verify", b"d", b"e"), {b"d": CLASHES, b"e": b"\n" * length})
    yield Case("a document too long and evidence too long", (b"join", b"d", b"d"), {b"d": b"\0" * (16 * DOCUMENT_LIMIT + 1)})
    yield Case("ten thousand words", (b"check",) * 10_000)
    yield Case("a long word", (b"check", b"d", b"x" * 100_000), {b"d": CLASHES})
    yield Case("a long name", (b"ask", b"d", b"x" * 100_000, b"BEFORE", b"y"), {b"d": CLASHES})
    yield Case("the longest drill", (b"drill", b"1024"))


class Limited(Modules):
    """The module with a memory of so many pages at most."""

    def __init__(self, folder: Path, pages: int) -> None:
        self.pages = pages
        super().__init__(str(folder))

    def command(self) -> list[str]:
        program, *words = super().command()
        return [program, f"--wasm-max-mem-pages={self.pages}", *words]


@needs_module
@needs_node
@needs_program
class Asked(unittest.TestCase):
    """The module and the program are asked the same."""

    programs: Programs

    @classmethod
    def setUpClass(cls) -> None:
        cls.programs = Programs(Path(TML).absolute())
        cls.addClassCleanup(cls.programs.__exit__, None, None, None)

    def test_drawn_cases(self) -> None:
        drawn = (draw_case(Random(f"web/{number}")) for number in range(CASES))
        with Modules(str(FOLDER)) as modules:
            for case in drawn:
                if obstacle(case) is None:
                    self.assertIsNone(modules.complaint(case, self.programs.outcome(case)), case)

    def test_lengths(self) -> None:
        usual = Case("usual", (b"solve", b"d"), {b"d": CLASHES})
        wanted = self.programs.outcome(usual)
        with Modules(str(FOLDER)) as modules:
            for case in hostile():
                with self.subTest(case.subject, words=case.words[:1]):
                    self.assertIsNone(modules.complaint(case, self.programs.outcome(case)))
                    self.assertIsNone(modules.complaint(usual, wanted))

    def test_memory_that_cannot_grow(self) -> None:
        cases = [
            Case("", (command, b"d"), {b"d": document_of(length)}) for command in (b"check", b"canon") for length in (99, 1 << 20, 1 << 22)
        ]
        cases += [
            Case("", (b"drill", b"200")),
            Case("", (b"relations", b"d"), {b"d": chain(300)}),
            Case("", (b"matrix", b"d"), {b"d": chain(300)}),
        ]
        wanted = [self.programs.outcome(case) for case in cases]
        small = Case("", (b"check", b"d"), {b"d": b"<TimeML>" + EVENTS + b"</TimeML>"})
        answered = []
        for pages in PAGES:
            with Limited(FOLDER, pages) as modules:
                outcomes = [(modules.outcome(case), modules.complaint(small, self.programs.outcome(small))) for case in cases]
            answered.append(0)
            for case, right, (outcome, complaint) in zip(cases, wanted, outcomes, strict=True):
                with self.subTest(pages=pages, words=case.words):
                    self.assertIn(
                        (outcome.status, outcome.text[:99]), ((right.status, right.text[:99]), (NO_MEMORY.status, NO_MEMORY.text))
                    )
                    self.assertTrue(outcome in (right, NO_MEMORY))
                    self.assertIsNone(complaint)
                answered[-1] += outcome != NO_MEMORY
        self.assertEqual(answered, sorted(answered))
        self.assertLess(answered[0], len(cases) / 2)
        self.assertEqual(answered[-1], len(cases))


def chain(count: int) -> bytes:
    """A document of so many times, each before the next one."""
    times = "".join(f'<TIMEX3 tid="t{number}" type="SET"/>' for number in range(count))
    links = "".join(f'<TLINK timeID="t{number - 1}" relatedToTime="t{number}" relType="BEFORE"/>' for number in range(1, count))
    return f"<TimeML>{times}{links}</TimeML>".encode()


@needs_module
@needs_node
@needs_program
class Command(unittest.TestCase):
    """`node tml.mjs` and the program, over real files."""

    programs: tuple[Programs, Programs]
    folder: Path

    @classmethod
    def setUpClass(cls) -> None:
        held = tempfile.TemporaryDirectory(prefix="web-")
        cls.addClassCleanup(held.cleanup)
        # A name that is not a part of a URL as it is.
        cls.folder = Path(held.name, "a b#c?d%20é")
        shutil.copytree(FOLDER, cls.folder)
        by_node = cls.folder / "tml"
        by_node.write_text(f'#!/bin/sh\nexec node {shlex.quote(str(cls.folder / "tml.mjs"))} "$@"\n', encoding="utf-8")
        by_node.chmod(0o755)
        cls.programs = Programs(Path(TML).absolute()), Programs(by_node)
        for programs in cls.programs:
            cls.addClassCleanup(programs.__exit__, None, None, None)

    def both(self, case: Case) -> Outcome:
        """The outcome of the program, which is that of Node too."""
        outcome, by_node = (programs.outcome(case) for programs in self.programs)
        self.assertEqual((by_node.status, by_node.text[:1000]), (outcome.status, outcome.text[:1000]), case)
        self.assertEqual(by_node, outcome)
        return outcome

    def test_drawn_cases(self) -> None:
        # Node opens what is closed, and hands on no bytes that are not UTF-8: docs/WEB.md.
        drawn = (draw_case(Random(f"command/{number}")) for number in range(OF_PROGRAM))
        statuses = {self.both(case).status for case in drawn if obstacle(case) is None and case.real is None}
        self.assertGreater(len(statuses), 4)

    def test_drawn_devices(self) -> None:
        for number in range(OF_PROGRAM // 2):
            random = Random(f"devices/{number}")
            case = draw_real(random, draw_case(random))
            if case.real is not None and case.real.output != Output.CLOSED and not case.real.input_closed and obstacle(case) is None:
                self.both(case)

    def test_files(self) -> None:
        document, other = CLASHES, b"<TimeML/>"
        rows: list[tuple[int, Case]] = [
            (0, Case("", (b"check", b"second"), {b"second": document})),
            (0, Case("", (b"score", b"second", b"first"), {b"first": other, b"second": other})),
            (4, Case("", (b"check", b"absent"), {b"first": document})),
            (4, Case("", (b"check", b""))),
            (8, Case("", (b"ask", b"d", b"first", b"BEFORE", b"second"), {b"d": other})),
            (0, Case("", (), {b"-": other})),
            (7, Case("", (b"verify", b"-", b"-"), {b"-": other})),
            (4, Case("", (b"verify", b"d", b"none"), {b"d": other})),
            (1, Case("", (b"verify", b"d", b"none"), {b"d": b""})),
            (3, Case("", (b"verify", b"d"), {b"d": other})),
            (3, Case("", (b"check", b"d", b"e"), {b"d": other})),
            (3, Case("", (b"check", b"\xff"), {b"d": other})),
            (3, Case("", (b"drill", b"d"), {b"d": other})),
            (9, Case("", (b"check", b"-"), {b"-": b" " * (DOCUMENT_LIMIT + 1)})),
            (0, Case("", (b"spans", b"d"), {b"d": document_of(DOCUMENT_LIMIT)})),
            (9, Case("", (b"renew", b"/dev/zero"))),
            (4, Case("", (b"check", b"folder"), real=Real(folders=(b"folder",)))),
            (5, Case("", (b"drill", b"2"), real=Real(Output.FULL))),
            (5, Case("", (b"drill", b"2"), real=Real(Output.GONE))),
            (2, Case("", (b"solve", b"d"), {b"d": document}, real=Real(Output.FULL))),
        ]
        for status, case in rows:
            with self.subTest(case.words):
                self.assertEqual(self.both(case).status, status)

    def answer(self, *words: str | Path, given: int | None = None) -> tuple[int, bytes, bytes]:
        """What Node answers to words, and perhaps a standard input: its status, its text, and what it says on standard error."""
        done = subprocess.run(["node", *words], stdin=given, capture_output=True, check=False, timeout=300)
        return done.returncode, done.stdout, done.stderr

    def test_a_file_that_is_not_reached(self) -> None:
        fifo, faulty = self.folder / "fifo", self.folder / "faulty"
        os.mkfifo(fifo)
        faulty.write_bytes(b"<a>")
        self.assertEqual(self.answer(self.folder / "tml.mjs", "verify", faulty, fifo)[0], 1)

    def test_an_input_that_does_not_wait(self) -> None:
        reading, writing = os.pipe()
        os.set_blocking(reading, False)
        script = f"import os, time; time.sleep(0.5); os.write({writing}, b'<TimeML/>')"
        with subprocess.Popen([*BARE, "-c", script], pass_fds=(writing,)):
            os.close(writing)
            status, text, _ = self.answer(self.folder / "tml.mjs", "check", "-", given=reading)
        os.close(reading)
        self.assertEqual((status, text.splitlines()[0]), (0, b"accepted"))

    def test_by_another_name(self) -> None:
        link = self.folder / "link.mjs"
        link.symlink_to("tml.mjs")
        self.assertEqual(self.answer(link, "drill", "1")[0], 0)

    def test_what_imports_it_answers_nothing(self) -> None:
        importer = self.folder / "importer.mjs"
        importer.write_text('import "./tml.mjs";\n', encoding="utf-8")
        self.assertEqual(self.answer(importer, "drill", "1"), (0, b"", b""))
        self.assertEqual(self.answer("-e", f"import({json.dumps((self.folder / 'tml.mjs').as_uri())})", "drill", "1"), (0, b"", b""))

    def test_without_the_module(self) -> None:
        lonely = self.folder / "lonely"
        lonely.mkdir()
        shutil.copy(self.folder / "tml.mjs", lonely)
        status, text, said = self.answer(lonely / "tml.mjs", "drill", "1")
        self.assertEqual((status, text), (126, b""))
        self.assertRegex(said, rb"\Atml: ENOENT: [^\n]*tml\.wasm'\n\Z")

    def test_which_words_name_files(self) -> None:
        forms = re.findall(r"^tml (\w+)(.*)$", self.both(Case("", (b"no",))).text.decode(), re.MULTILINE)
        script = text_at("web/tml.mjs")
        table = {name: set(re.findall(r'"(\w+)"', match_in(rf"^const {name} = \[(.*?)\];", script, re.MULTILINE)[1])) for name in TABLE}
        kinds = {command: tuple(TABLE_OF[word] for word in words.split() if word in TABLE_OF) for command, words in forms}
        self.assertEqual(table["READS_NOTHING"], {command for command, files in kinds.items() if not files})
        self.assertEqual(table["READS_TWO"], {command for command, files in kinds.items() if len(files) == 2})
        self.assertEqual(table["READS_EVIDENCE"], {command for command, files in kinds.items() if files[:1] == ("evidence",)})
        self.assertEqual({command for command, files in kinds.items() if files[1:] == ("document",)}, {"score"})


TABLE = ("READS_NOTHING", "READS_TWO", "READS_EVIDENCE")
TABLE_OF = {"DOC": "document", "KEY": "document", "EVIDENCE": "evidence", "SECOND": "evidence", "SECONDS": "evidence"}
"""What the words of a form that name files stand for."""


if __name__ == "__main__":
    unittest.main()
