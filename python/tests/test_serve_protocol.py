"""How `tml-corpus serve` begins and ends: identifiers of requests, a `tml` that is missing or hangs, and what comes after `shutdown`."""

from __future__ import annotations

import os
import signal
import time
import unittest

from corpus import EVENT, INSTANCE, TML, document
from processes import PATIENCE, is_running, until
from serving import Client, Json, ServeTest
from tml.statuses import DOCUMENT_LIMIT

FAULTY = document(EVENT + INSTANCE.replace("e1", "e2"))
CAN_ASK = {"textDocument": {"uri": "file:///d.xml"}}


class Requests(ServeTest):
    def test_an_id_of_another_kind_is_answered_with_an_error(self) -> None:
        client = self.client()
        for number in ("{}", "[1]", "true", "1.5"):
            with self.subTest(number):
                client.send(b'{"jsonrpc": "2.0", "id": %s, "method": "textDocument/hover", "params": {}}' % number.encode())
                answer = client.receive()
                self.assertEqual((answer["id"], answer["error"]["code"]), (None, -32600))
                self.assertIn("a whole number or a text", answer["error"]["message"])
        client.send({"id": "a", "method": "no/such"})
        self.assertEqual(client.answer("a")["error"]["code"], -32601)

    def test_a_truth_value_is_no_line(self) -> None:
        client = self.client()
        self.opened(client, FAULTY)
        said = client.reply("textDocument/hover", {"textDocument": {"uri": self.uri()}, "position": {"line": True, "character": 0}})
        self.assertEqual(said["error"]["code"], -32602)


class Shutdown(ServeTest):
    def test_nothing_is_published_after_shutdown(self) -> None:
        client = self.client()
        self.opened(client, FAULTY)
        shutdown = client.request("shutdown", None)
        client.send({"method": "textDocument/didChange", "params": self.change(FAULTY + " ", 2)}, shutdown)
        client.answer(shutdown["id"])
        client.told.clear()
        client.send(
            {"method": "textDocument/didChange", "params": self.change(FAULTY, 3)},
            {"method": "textDocument/didClose", "params": {"textDocument": {"uri": self.uri()}}},
            {"method": "textDocument/didOpen", "params": {"textDocument": {"uri": self.uri("e.xml"), "version": 1, "text": FAULTY}}},
        )
        said = client.reply("textDocument/hover", CAN_ASK)
        self.assertEqual((said["error"]["code"], client.told), (-32600, []))
        time.sleep(0.5)
        client.tell("exit", None)
        self.assertEqual(client.child.wait(PATIENCE), 0)
        self.assertIsNone(client.incoming.body())

    def hanging(self) -> tuple[Client, str]:
        """An editor with a document open of which a `tml` is asked that never answers, and the file with the number of its process."""
        once = 'if [ ! -e "$TML_HANGS" ]; then echo $$ > "$TML_HANGS.new"; mv "$TML_HANGS.new" "$TML_HANGS"; fi'
        self.write("hang", f"#!/bin/sh\n{once}\nexec sleep 1000\n")
        os.chmod(self.path("hang"), 0o755)
        client = self.started(tml=self.path("hang"), TML_HANGS=self.path("number"))
        self.greet(client)
        client.tell("textDocument/didOpen", {"textDocument": {"uri": self.uri(), "version": 1, "text": FAULTY}})
        # It has begun, and the server may not know it yet.
        until(lambda: os.path.exists(self.path("number")))
        return client, self.path("number")

    def assert_gone(self, path: str) -> None:
        """The process of which a file has the number has ended."""
        with open(path, encoding="utf-8") as file:
            number = int(file.read())
        until(lambda: not is_running(number))

    def test_shutdown_and_exit_come_through_a_tml_that_hangs(self) -> None:
        client, path = self.hanging()
        hovers = [client.request("textDocument/hover", self.about_start()) for _ in range(3)]
        shutdown = client.request("shutdown", None)
        client.send(*hovers, shutdown, {"method": "exit"})
        errors = [client.answer(one["id"])["error"]["code"] for one in hovers]
        self.assertEqual((errors, client.answer(shutdown["id"])["result"], client.told), ([-32802] * 3, None, []))
        self.assertEqual(client.child.wait(PATIENCE), 0)
        self.assert_gone(path)

    def test_exit_alone_and_a_signal_end_a_tml_that_hangs(self) -> None:
        client, path = self.hanging()
        client.tell("exit", None)
        self.assertEqual(client.child.wait(PATIENCE), 1)
        self.assert_gone(path)
        os.unlink(path)
        client, path = self.hanging()
        client.child.send_signal(signal.SIGTERM)
        self.assertEqual(client.child.wait(PATIENCE), -signal.SIGTERM)
        self.assert_gone(path)

    def about_start(self) -> Json:
        """What a request about the first position says."""
        return {"textDocument": {"uri": self.uri()}, "position": {"line": 0, "character": 0}}


class Missing(ServeTest):
    def test_initialize_is_answered_before_a_missing_program_is_reported(self) -> None:
        client = self.started(tml=self.path("none"))
        client.send(client.request("initialize", {"capabilities": {}}))
        first, second = client.receive(), client.receive()
        self.assertIn("capabilities", first["result"])
        self.assertEqual((second["method"], second["params"]["type"]), ("window/showMessage", 1))
        self.assertEqual(second["params"]["message"], f"tml-corpus serve: no program {self.path('none')}, which --tml names")
        [found] = self.opened(client, FAULTY)
        self.assertEqual((found["severity"], found["code"]), (2, "not-judged"))
        self.assertEqual(found["message"], f"not judged: no program {self.path('none')}, which --tml names")
        os.symlink(TML, self.path("none"))
        [found] = self.changed(client, FAULTY + " ", 2)
        self.assertEqual(found["code"], "15 UnknownReference")
        self.assertIsNone(client.ask("shutdown"))

    def test_what_was_not_judged_is_a_warning_with_a_code(self) -> None:
        client = self.client()
        [found] = self.opened(client, document("x" * DOCUMENT_LIMIT))
        self.assertEqual((found["severity"], found["code"], found["source"]), (2, "not-judged", "tml"))
        self.assertTrue(found["message"].startswith("not judged: "))


if __name__ == "__main__":
    unittest.main()
