"""A browser for the tests of pages: headless Chromium, told over two pipes what to do. Nothing else is needed for it."""

from __future__ import annotations

import atexit
import base64
import contextlib
import functools
import json
import os
import select
import shutil
import subprocess
import tempfile
import unittest
from typing import Any

from corpus import needed
from processes import PATIENCE

Json = dict[str, Any]
"""An object of JSON, whose form is the business of the browser."""

CHROMIUM: str | None = next(filter(None, map(shutil.which, ("chromium", "chromium-browser", "google-chrome"))), None)
needs_browser = unittest.skipUnless(CHROMIUM, "no program chromium")

WORDS = (
    "--headless", "--no-sandbox", "--disable-gpu", "--disable-dev-shm-usage", "--no-first-run", "--disable-extensions",
    "--hide-scrollbars",
)  # fmt: skip
IN_PIPES = 'exec "$@" 3<&0 4>&1 </dev/null >/dev/null 2>&1'


class Program:
    """The program, which has many pages: messages go to it and come from it."""

    def __init__(self) -> None:
        self.folder = tempfile.TemporaryDirectory(ignore_cleanup_errors=True)
        program = [needed(CHROMIUM), *WORDS, "--remote-debugging-pipe", f"--user-data-dir={self.folder.name}", "about:blank"]
        self.child = subprocess.Popen(["sh", "-c", IN_PIPES, "sh", *program], stdin=subprocess.PIPE, stdout=subprocess.PIPE)
        self.input, self.output = needed(self.child.stdin), needed(self.child.stdout)
        self.number, self.received = 0, bytearray()

    def end(self) -> None:
        """Ends the program."""
        with contextlib.suppress(OSError):
            self.send("Browser.close", {}, None)
        self.input.close()
        try:
            self.child.wait(PATIENCE)
        except subprocess.TimeoutExpired:
            self.child.kill()
            self.child.wait()
        self.output.close()
        self.folder.cleanup()

    def send(self, method: str, words: Json, session: str | None) -> int:
        """Sends one message, to a page where one is named, and answers its number."""
        self.number += 1
        message = {"id": self.number, "method": method, "params": words} | ({"sessionId": session} if session else {})
        self.input.write(json.dumps(message).encode() + b"\0")
        self.input.flush()
        return self.number

    def receive(self) -> Json:
        """The next message of the browser."""
        while b"\0" not in self.received:
            ready, _, _ = select.select([self.output], [], [], PATIENCE)
            part = os.read(self.output.fileno(), 65536) if ready else b""
            if not part:
                raise EOFError("the browser has ended, or says nothing")
            self.received += part
        message, _, self.received = self.received.partition(b"\0")
        received: Json = json.loads(message)
        return received


@functools.cache
def running() -> Program:
    """The program of this process, which starts once and ends with it."""
    program = Program()
    atexit.register(program.end)
    return program


class Browser:
    """One page, which shares nothing with others. What it says on the console, and what the browser says of it, is in `said`."""

    def __init__(self, width: int = 1400, height: int = 900) -> None:
        self.program, self.loaded = running(), False
        self.session: str | None = None
        self.said: list[str] = []
        self.context = self.ask("Target.createBrowserContext")["browserContextId"]
        own = {"browserContextId": self.context, "width": width, "height": height, "newWindow": True}
        page = self.ask("Target.createTarget", url="about:blank", **own)["targetId"]
        self.session = self.ask("Target.attachToTarget", targetId=page, flatten=True)["sessionId"]
        for domain in ("Page", "Runtime", "Log"):
            self.ask(f"{domain}.enable")

    def __enter__(self) -> Browser:
        return self

    def __exit__(self, *error: object) -> None:
        self.session = None
        try:
            self.ask("Target.disposeBrowserContext", browserContextId=self.context)
        except (EOFError, OSError):
            # It has ended: the next page needs another.
            running.cache_clear()

    def ask(self, method: str, **words: object) -> Json:
        """What the browser answers; events are noted on the way."""
        number = self.program.send(method, words, self.session)
        while True:
            message = self.program.receive()
            if message.get("id") == number:
                if "error" in message:
                    raise RuntimeError(message["error"])
                result: Json = message["result"]
                return result
            self.note(message)

    def note(self, message: Json) -> None:
        """Takes an event of this page into account."""
        if message.get("sessionId") != self.session:
            return
        words = message.get("params", {})
        if message.get("method") == "Page.loadEventFired":
            self.loaded = True
        elif message.get("method") == "Runtime.consoleAPICalled":
            self.said.append(str(words["args"]))
        elif message.get("method") == "Runtime.exceptionThrown":
            self.said.append(str(words["exceptionDetails"]))
        elif message.get("method") == "Log.entryAdded":
            self.said.append(words["entry"]["text"])
        elif message.get("method") == "Page.javascriptDialogOpening":
            self.said.append("dialog: " + words["message"])

    def open(self, path: str) -> None:
        """Opens a file, and waits until all of it is there."""
        self.loaded = False
        self.ask("Page.navigate", url="file://" + os.path.abspath(path))
        while not self.loaded:
            self.note(self.program.receive())

    def value(self, expression: str) -> Any:
        """The value of an expression in the page."""
        answer = self.ask("Runtime.evaluate", expression=expression, returnByValue=True)
        if "exceptionDetails" in answer:
            raise RuntimeError(answer["exceptionDetails"])
        return answer["result"].get("value")

    def click(self, selector: str) -> None:
        """Clicks with the mouse into the middle of the first element that is found."""
        find = f"const one = document.querySelector({json.dumps(selector)}); one.scrollIntoView({{block: 'center'}});"
        middle = "const box = one.getBoundingClientRect(); return [box.left + box.width / 2, box.top + box.height / 2];"
        x, y = self.value(f"(() => {{ {find} {middle} }})()")
        for kind in ("mouseMoved", "mousePressed", "mouseReleased"):
            self.ask("Input.dispatchMouseEvent", type=kind, x=x, y=y, button="none" if kind == "mouseMoved" else "left", clickCount=1)

    def press(self, key: str, code: int = 0) -> None:
        """Presses a key."""
        for kind in ("keyDown", "keyUp"):
            self.ask("Input.dispatchKeyEvent", type=kind, key=key, code=key, windowsVirtualKeyCode=code)

    def picture(self, path: str) -> None:
        """Writes a picture of what is seen."""
        with open(path, "wb") as file:
            file.write(base64.b64decode(self.ask("Page.captureScreenshot")["data"]))
