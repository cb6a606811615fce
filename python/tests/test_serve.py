"""`tml-corpus serve`: by the protocol over pipes, as an editor speaks it."""

import io
import json
import os
import random
import re
import shlex
import shutil
import subprocess
import unittest
from unittest import mock

import tomllib

from corpus import COMPANION, EVENT, INSTANCE, TML, TOP, CorpusTest, document
from processes import BARE, PATIENCE, processor_time_of
from serving import ServeTest
from tml_corpus.serve.inbox import Message
from tml_corpus.serve.places import UTF_8, UTF_16, ClientPlaces
from tml_corpus.serve.server import Server

HERE = os.path.dirname(os.path.abspath(__file__))
DAYS = '<TIMEX3 tid="t1" type="DATE" value="1998-02-26">Thursday</TIMEX3> <TIMEX3 tid="t2" type="DATE" value="1998-02-27">Friday</TIMEX3>\n'
TOUCHING = document(DAYS + '<TLINK timeID="t1" relatedToTime="t2" relType="BEFORE"/>\n')


class Places(unittest.TestCase):
    def test_each_place_and_back(self) -> None:
        draw = random.Random(1)
        for _ in range(200):
            pieces = [draw.choice(["a", "é", "\u20ac", "😀", "\n", "\r\n", "\r", "\ud800", "x" * 3000]) for _ in range(draw.randint(0, 20))]
            offsets = [0]
            for piece in pieces:
                offsets.append(offsets[-1] + len(piece.encode("utf-8", "surrogatepass")))
            text = "".join(pieces).encode("utf-8", "surrogatepass")
            for encoding in (UTF_8, UTF_16):
                places = ClientPlaces(text, encoding)
                for offset in offsets:
                    if not (text[offset - 1 : offset] == b"\r" and text[offset : offset + 1] == b"\n"):
                        self.assertEqual(places.offset(places.position(offset)), offset)

    def test_units(self) -> None:
        text = "a😀é\nx".encode()
        end = text.index(b"\n")
        self.assertEqual(ClientPlaces(text, UTF_16).position(end), {"line": 0, "character": 4})
        self.assertEqual(ClientPlaces(text, UTF_8).position(end), {"line": 0, "character": 7})
        for line, character, offset in ((0, 99, end), (9, 0, len(text)), (0, 2, 1), (-1, 0, 0)):
            self.assertEqual(ClientPlaces(text, UTF_16).offset({"line": line, "character": character}), offset)


class Session(ServeTest):
    def test_a_fault_appears_and_goes(self) -> None:
        client = self.client()
        [found] = self.opened(client, document(EVENT + INSTANCE.replace("e1", "e2")))
        self.assertEqual((found["severity"], found["code"], self.stretch(found["range"])), (1, "15 UnknownReference", 'eventID="e2"'))
        keystrokes = "write '1' for '2' at 2:74, or write '2' for '1' at 2:14"
        self.assertEqual(found["message"], f'no EVENT has eid="e2"; there is e1; or one wrong keystroke: {keystrokes}')
        said = [(one["severity"], one["code"]) for one in self.changed(client, document(EVENT + INSTANCE), 2)]
        self.assertEqual(said, [(3, "no-creation-time"), (3, "unlinked-instance")])
        client.tell("textDocument/didClose", {"textDocument": {"uri": self.uri()}})
        self.assertEqual(client.findings(), [])
        self.assertIsNone(client.ask("shutdown"))
        client.tell("exit", None)
        self.assertEqual((client.child.wait(60), client.errors.read()), (0, b""))

    def test_further_faults(self) -> None:
        client = self.client()
        self.assertEqual(len(self.opened(client, document('<EVENT eid="e1" class="STAT">x</EVENT><TIMEX3 tid="t1" type="DAT"/>'))), 1)
        self.assertEqual([one["code"] for one in client.findings(1)], ["11 BadValue", "11 BadValue"])

    def test_faults_are_those_of_check(self) -> None:
        draw, client = random.Random(7), self.client()
        sample = self.sample("port.xml")
        for version in range(2, 22):
            at = draw.randrange(len(sample))
            text = sample[:at] + draw.choice(['"', "<", "&", "x", ""]) + sample[at + draw.randint(0, 3) :]
            self.write("d.xml", text)
            _, lines, _ = self.run_it("check", "--lint", "--clashes", "--format", "jsonl", "d.xml")
            report = json.loads("\n".join(lines))
            wanted = json.dumps(report, ensure_ascii=False)
            for found in self.changed(client, text, version):
                said = found["message"].split(": ", 1)[-1] if found["code"] == "clash" else found["message"]
                self.assertIn(json.dumps(said, ensure_ascii=False)[1:-1], wanted)
                self.assertIn(str(found["range"]["start"]["line"] + 1), wanted)

    def test_a_clash_stands_at_each_of_its_links(self) -> None:
        client = self.client()
        found = self.opened(client, self.sample("port.xml"))
        self.assertEqual([one["message"].split(":")[0] for one in found], [f"clash, {number} of 4" for number in range(1, 5)])
        self.assertEqual([one["range"]["start"]["line"] for one in found], [22, 23, 28, 29])
        beside = found[1]["relatedInformation"]
        self.assertEqual([one["location"]["range"]["start"]["line"] for one in beside], [28, 29, 22, 3, 3, 6])
        self.assertIn("by the calendar Monday ends", beside[3]["message"])
        self.assertTrue(beside[-1]["message"].startswith('the date of Wednesday (t2) is value="1998-03-11"'))
        self.assertIn("No timeline fits", self.hover(client, "Monday"))

    def test_settings_of_the_folder(self) -> None:
        self.write("tml-corpus.toml", 'ignore = ["no-creation-time"]\nwrappers = ["q"]\n')
        self.write("bad/tml-corpus.toml", "ignore = 1\n")
        client = self.client()
        self.assertEqual(self.opened(client, document("<q>x</q>")), [])
        self.assertIn("ignore has to be a list of texts", self.opened(client, document("x"), "bad/d.xml")[0]["message"])

    def test_settings_are_read_once_for_each_change_of_them(self) -> None:
        server, about = Server(TML, None, io.BytesIO()), Message("textDocument/didChange", {}, uri=self.uri())
        with mock.patch.object(tomllib, "loads", wraps=tomllib.loads) as load:
            for content in ('wrappers = ["q"]', "wrappers = 1"):
                load.reset_mock()
                self.write("tml-corpus.toml", content)
                for version in range(20):
                    server.take_text(about, document("<q>x</q>"), version)
                self.assertEqual(load.call_count, 1)

    def test_places_are_in_units_of_the_client(self) -> None:
        text = document("😀é <EVENT/>")
        [found] = self.opened(self.client(), text)
        self.assertEqual((self.can["positionEncoding"], found["range"]["start"]), ("utf-16", {"line": 1, "character": 4}))
        [found] = self.opened(self.client(general={"positionEncodings": ["utf-8", "utf-16"]}), text)
        self.assertEqual((self.can["positionEncoding"], found["range"]["start"]), ("utf-8", {"line": 1, "character": 7}))


class Answers(ServeTest):
    def test_hover(self) -> None:
        client = self.client()
        self.opened(client, self.sample("rates.xml"))
        time_of = self.hover(client, "<TIMEX3", 2)
        self.assertRegex(time_of, r"\*\*.* \(t\d+, (?:DATE|TIME) .*\)\*\*\n\ndate: \d+ \w+ \d{4}, \d\d:\d\d to \d\d:\d\d:\d\d\n")
        self.assertRegex(
            self.hover(client, "<EVENT", 2), r"^\*\*\w+ \(e\d+, [A-Z_]+\): instance ei\d+\*\*\n\n\w+ [A-Z_, ]+ .* \(ei\d+, \w+\)"
        )
        self.assertRegex(self.hover(client, "<TLINK", 2), r"^\*\*.* \(l1: \w+ [A-Z_]+ \w+\)\*\*")
        self.assertRegex(self.hover(client, "<MAKEINSTANCE", 2), r"^\*\*.* \(ei\d+\), an instance of e\d+\*\*")
        self.assertIsNone(self.hover(client, "<TimeML"))

    def test_hover_says_what_follows(self) -> None:
        client = self.client()
        link = '<TLINK eventInstanceID="i1" relatedToTime="t1" relType="IS_INCLUDED"/>'
        self.opened(client, document(DAYS + EVENT + INSTANCE + link + '<TLINK eventInstanceID="i1" relatedToTime="t2" relType="BEFORE"/>'))
        self.assertEqual(
            self.hover(client, ">x<", 1),
            "**x (e1, STATE): instance i1**\n\nx IS_INCLUDED, DURING Thursday (i1, t1)\n\nx BEFORE Friday (i1, t2)",
        )
        self.assertIn("follows from the links", self.hover(client, 'relType="BEFORE"', 2))
        self.assertIn("\n\ndate: ", self.hover(client, 'relatedToTime="t2"', 16))

    def test_definition_and_references(self) -> None:
        client = self.client()
        self.opened(client, self.sample("port.xml"))
        found = client.ask("textDocument/definition", self.about('relatedToTime="t1"', 16))
        self.assertEqual((self.stretch(found["range"]), found["range"]["start"]), ("t1", self.at('tid="t1"', 5)))
        for declared, count in ((True, 3), (False, 2)):
            asked = {**self.about("Monday"), "context": {"includeDeclaration": declared}}
            found = client.ask("textDocument/references", asked)
            self.assertEqual([self.stretch(one["range"]) for one in found], ["t1"] * count)
        self.assertIsNone(client.ask("textDocument/definition", self.about("Lund")))

    def test_completion(self) -> None:
        client = self.client()
        whole = self.sample("port.xml")
        begun = whole.replace(
            '<TLINK lid="l5" eventInstanceID="ei4" relatedToTime="t1" relType="IS_INCLUDED"/>',
            '<TLINK lid="l5" relatedToTime="t" relType="BE',
        )
        self.opened(client, begun)
        labels = [one["label"] for one in client.ask("textDocument/completion", self.about('relType="BE\n', 11))]
        self.assertEqual(labels[:4] + labels[-1:], ["BEFORE", "AFTER", "INCLUDES", "IS_INCLUDED", "OVERLAPPED_BY"])
        items = client.ask("textDocument/completion", self.about('relatedToTime="t" ', 16))
        self.assertEqual([(one["label"], one["detail"]) for one in items], [("t0", "Thursday"), ("t1", "Monday"), ("t2", "Wednesday")])
        self.assertEqual(self.stretch(items[0]["textEdit"]["range"]), "t")
        names = [one["label"] for one in client.ask("textDocument/completion", self.about('relatedToTime="t" relType="BE\n'))]
        self.assertEqual(names[0], "relType")
        self.assertNotIn("lid", names)
        self.assertEqual(client.ask("textDocument/completion", self.about("Lund", 2)), [])
        identifier = client.ask("textDocument/completion", self.about('tid="t2"', 5))
        self.assertEqual([one["label"] for one in identifier], ["t3"])

    def test_symbols(self) -> None:
        tree = self.client(textDocument={"documentSymbol": {"hierarchicalDocumentSymbolSupport": True}})
        self.opened(tree, self.sample("port.xml"))
        found = tree.ask("textDocument/documentSymbol", {"textDocument": {"uri": self.uri()}})
        self.assertEqual(
            [(one["name"], one["detail"]) for one in (found[0], found[-1])], [("t0", "Thursday"), ("l13", "said IS_INCLUDED Thursday")]
        )
        plain = self.client()
        self.opened(plain, self.sample("port.xml"))
        listed = plain.ask("textDocument/documentSymbol", {"textDocument": {"uri": self.uri()}})
        self.assertEqual([one["name"] for one in listed], [one["name"] for one in found])
        self.assertIn("location", listed[0])


class Actions(ServeTest):
    def test_a_cure_is_applied_and_the_fault_is_gone(self) -> None:
        client = self.client()
        rows = [
            (EVENT + INSTANCE + "a & b", "&", "Fix unescaped & (1 change)"),
            (EVENT.replace("STATE", "State"), "State", "Fix values in other letters (1 change)"),
            (EVENT.replace("EVENT", "event"), "<event", "Fix tags in other letters (2 changes)"),
            (EVENT.replace('"e1"', "\u201ce1\u201d"), "<EVENT", "Fix curly quotes (2 changes)"),
        ]
        self.opened(client, document("x"))
        for number, (inner, needle, title) in enumerate(rows):
            with self.subTest(title):
                [found] = self.changed(client, document(inner), 2 * number + 2)
                self.assertEqual(found["severity"], 1)
                [action] = [one for one in self.actions(client, needle) if one["title"] == title]
                self.assertEqual((action["kind"], action["isPreferred"]), ("quickfix", title != "Fix unescaped & (1 change)"))
                left = self.changed(client, self.applied(action), 2 * number + 3)
                self.assertNotIn(1, [one["severity"] for one in left])
                self.assertEqual(self.actions(client, "<TimeML"), [])

    def test_all_cures(self) -> None:
        client = self.client()
        self.opened(client, document("é &nbsp; b\n" + EVENT.replace("STATE", "State") + "\nx\n"))
        self.assertEqual(self.actions(client, "&", only=["refactor"]), [])
        [action] = self.actions(client, "<TimeML", only=["source"])
        self.assertEqual(self.applied(action), document("é &#160; b\n" + EVENT + "\nx\n"))

    def test_dates_that_touch(self) -> None:
        client = self.client()
        found = self.opened(client, TOUCHING)
        self.assertEqual([(one["code"], one["severity"]) for one in found], [("touching", 1), ("no-creation-time", 3)])
        self.assertIn("write IBEFORE", found[0]["message"])
        [action] = self.actions(client, "<TLINK")
        self.assertRegex(action["title"], "^Write IBEFORE: Thursday ends exactly where Friday begins")
        self.assertEqual(self.applied(action), TOUCHING.replace("BEFORE", "IBEFORE"))
        self.assertEqual([one["code"] for one in self.changed(client, self.applied(action), 2)], ["no-creation-time"])

    def test_a_link_that_follows_is_taken_out(self) -> None:
        client = self.client()
        link = '<TLINK timeID="t1" relatedToTime="t2" relType="IBEFORE"/>\n'
        self.opened(client, document(DAYS + link))
        [action] = self.actions(client, "<TLINK")
        self.assertEqual((action["kind"], self.applied(action)), ("refactor.rewrite", document(DAYS)))
        self.assertEqual(self.actions(client, "<TIMEX3"), [])


class Protocol(ServeTest):
    def test_requests_that_are_not_wanted(self) -> None:
        client = self.client()
        text = self.sample("rates.xml")
        self.opened(client, text)
        hover = client.request("textDocument/hover", self.about("<EVENT", 2))
        again = client.request("textDocument/hover", self.about("<EVENT", 2))
        client.send(
            {"method": "textDocument/didChange", "params": self.change(text + " ", 2)},
            hover,
            {"method": "$/cancelRequest", "params": {"id": hover["id"]}},
            again,
            {"method": "textDocument/didChange", "params": self.change(text, 3)},
        )
        answers = [client.answer(one["id"]) for one in (hover, again)]
        self.assertEqual([one["error"]["code"] for one in answers], [-32800, -32801])
        self.assertEqual(client.told, [])
        self.assertTrue(client.findings(3) is not None)

    def test_only_the_last_of_many_changes_is_judged(self) -> None:
        client = self.client()
        text = self.sample("port.xml")
        self.opened(client, text)
        client.send(*({"method": "textDocument/didChange", "params": self.change(text + " " * number, number)} for number in range(2, 202)))
        versions: list[int] = []
        while not versions or versions[-1] != 201:
            message = client.receive()
            versions.append(message["params"]["version"])
        self.assertLess(len(versions), 100)

    def test_what_is_no_message(self) -> None:
        client = self.client()
        client.send(b"{", b"[]", b"[" * 100_000, b'{"id": 5}', b'{"id": 9, "method": "no/such"}', b'{"method": "textDocument/didOpen"}')
        client.send(client.request("textDocument/hover", {"textDocument": {"uri": "x"}}), client.request("initialize", {}))
        codes = [client.receive()["error"]["code"] for _ in range(6)]
        self.assertEqual(codes, [-32700, -32600, -32700, -32601, -32602, -32600])
        client.ask("shutdown")
        client.send(client.request("textDocument/hover", {}))
        self.assertEqual(client.answer(client.number)["error"]["code"], -32600)

    def test_before_initialize_and_without_an_end(self) -> None:
        client = self.started()
        client.send(client.request("textDocument/hover", {}))
        self.assertEqual(client.answer(1)["error"]["code"], -32002)
        client.input.close()
        self.assertEqual(client.child.wait(60), 1)

    def test_a_wire_that_is_broken(self) -> None:
        for sent in (b"Content-Length: x\r\n\r\n", b"Content-Length: 99999999999\r\n\r\n", b"x" * 9000, b"Content-Length: 9\r\n\r\n{"):
            with self.subTest(sent[:40]):
                done = subprocess.run([*BARE, COMPANION, "serve", "--tml", TML], input=sent, capture_output=True, check=False, timeout=60)
                self.assertEqual((done.returncode, done.stdout, done.stderr.count(b"\n")), (2, b"", 1))

    def test_hostile_documents(self) -> None:
        client = self.client()
        texts = [
            "",
            "\ud800",
            "\0",
            "<",
            "<TimeML",
            "&" * 5000,
            "<TimeML>" * 40,
            "<TimeML>\r\ud83d" + "é" * 9000 + "<EVENT ",
            "x" * 4_200_000,
        ]
        texts += [document('<TLINK relType="' + "A" * 100_000 + '"/>' * 3), document("<EVENT/>" * 20_000), "\ufeff" + document("<EVENT/>")]
        self.opened(client, document("x"))
        before = processor_time_of(client.child.number)
        for version, text in enumerate(texts, 2):
            with self.subTest(text[:30]):
                self.assertTrue(self.changed(client, text, version))
                for line, character in ((0, 0), (0, len(text)), (1, 9), (2**31, 2**31), (0, 17)):
                    where = {"line": line, "character": character}
                    for method in ("hover", "definition", "completion", "references", "documentSymbol", "codeAction", "prepareRename"):
                        given = {
                            "position": where,
                            "context": {},
                            "range": {"start": where, "end": where},
                            "textDocument": {"uri": self.uri()},
                        }
                        client.send(client.request(f"textDocument/{method}", given))
                        self.assertNotIn("error", client.answer(client.number), method)
        self.assertLess(processor_time_of(client.child.number) - before, 100)

    def test_a_keystroke(self) -> None:
        client, parts = self.client(), []
        for number in range(250):
            parts.append(
                f'{"word " * 40}<EVENT eid="e{number}" class="STATE">x</EVENT>\n<MAKEINSTANCE eiid="i{number}" eventID="e{number}"/>\n'
            )
        parts += [
            f'<TLINK eventInstanceID="i{number}" relatedToEventInstance="i{number + 1}" relType="BEFORE"/>\n' for number in range(249)
        ]
        text = document("".join(parts))
        self.opened(client, text)
        before, versions = processor_time_of(client.child.number), range(2, 22)
        for version in versions:
            self.changed(client, text.replace("word", "w" * version, 1), version)
        self.assertGreater(len(text), 90_000)
        # Some hundredths of a second of processor time are usual for each.
        self.assertLess((processor_time_of(client.child.number) - before) / len(versions), 0.5)


class Editors(CorpusTest):
    """Clients that others wrote."""

    def run_editor(self, *words: str, path: str = os.environ["PATH"]) -> str:
        """What an editor prints that is started with a document with one fault; `tml-corpus` is on its path."""
        for name in ("d.xml", "d.tml", "e.tml"):
            self.write(name, document('<EVENT eid="e1" class="State">x</EVENT> word\n'))
        self.write("bin/tml-corpus", f'#!/bin/sh\nexec {shlex.join([*BARE, COMPANION])} "$@" --tml {shlex.quote(TML)}\n')
        os.chmod(self.path("bin/tml-corpus"), 0o755)
        done = subprocess.run(
            words,
            cwd=self.folder,
            env={
                **os.environ,
                "PATH": path,
                "HOME": self.folder,
                "XDG_STATE_HOME": self.folder,
                "TML_SERVE": self.path("bin/tml-corpus") + " serve",
                "TML_DOCUMENT": self.path("d.xml"),
            },
            stdin=subprocess.DEVNULL,
            stdout=subprocess.PIPE,
            stderr=subprocess.STDOUT,
            check=False,
            timeout=2 * PATIENCE,
        )
        return done.stdout.decode("utf-8", "replace").replace("\r", "")

    def check_printed(self, printed: str, *wanted: str) -> None:
        """Checks that some lines are printed."""
        for line in wanted:
            self.assertRegex(printed, rf"(?m)^{line}", printed)

    def run_neovim(self, path: str, *commands: str) -> str:
        """What Neovim prints that is set up as docs/EDITORS.md says, with a document without a prolog."""
        with open(os.path.join(TOP, "docs", "EDITORS.md"), encoding="utf-8") as file:
            (set_up,) = re.findall(r"```lua\n(.*?)```", file.read(), re.DOTALL)
        self.write("init.lua", set_up)
        after = [word for command in (*commands, "qa!") for word in ("-c", command)]
        return self.run_editor(shutil.which("nvim") or "nvim", "--headless", "-u", self.path("init.lua"), "-n", "d.tml", *after, path=path)

    @unittest.skipUnless(shutil.which("nvim"), "no program nvim")
    def test_neovim(self) -> None:
        printed = self.run_neovim(f"{self.path('bin')}:{os.environ['PATH']}", f"luafile {os.path.join(HERE, 'serve.lua')}")
        self.check_printed(
            printed,
            "types: xml xml",
            "clients: 1$",
            "attached: true true",
            'said: class="State" is not a class: .*did you mean STATE',
            r"offered: Fix values in other letters \(1 change\)",
            'line: <EVENT eid="e1" class="STATE">x</EVENT> word',
            "then: the document has no creation time",
            r"hover: \*\*x \(e1, STATE\)",
            "refused: .*is not an identifier",
            'renamed: <EVENT eid="e7" class="STATE">x</EVENT> word',
            'annotated: .* <EVENT eid="e2" class="OCCURRENCE">word</EVENT>',
            'instance: <MAKEINSTANCE eiid="ei1" eventID="e2"/>',
            "offered: Split the second document off into d.2.tml",
            "left: </TimeML>",
            "made: <TimeML>second</TimeML>",
            "stopped: true",
        )
        self.assertNotRegex(printed, "Error|traceback")

    @unittest.skipUnless(shutil.which("nvim"), "no program nvim")
    def test_neovim_without_the_program(self) -> None:
        printed = self.run_neovim(self.folder, "edit e.tml", "lua print('clients: ' .. #vim.lsp.get_active_clients())")
        self.check_printed(printed, ".*clients: 0$")
        self.assertNotRegex(printed, "Error|traceback")

    @unittest.skipUnless(shutil.which("emacs"), "no program emacs")
    def test_emacs(self) -> None:
        printed = self.run_editor("emacs", "--batch", "--no-init-file", "-l", os.path.join(HERE, "serve.el"))
        if "no eglot" in printed:
            self.skipTest("Emacs has no Eglot")
        self.check_printed(
            printed,
            r'said: tml \[11 BadValue\]: class="State" is not a class: .*did you mean STATE',
            r"then: tml \[no-creation-time\]: the document has no creation time",
            r"hover: \*\*x \(e1, STATE\)",
            'renamed: <EVENT eid="e7" class="STATE">x</EVENT>',
            "stopped",
        )


if __name__ == "__main__":
    unittest.main()
