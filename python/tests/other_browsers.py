"""Runs the tests of the page tml.html in Firefox or in WebKit, by hand. In the gate, headless Chromium runs them.

    other_browsers.py firefox [NAME ...]     needs firefox-esr
    other_browsers.py webkit [NAME ...]      needs webkit2gtk-driver and xvfb

A name is the name of a test, such as Drawn or Said.test_queries. A test is skipped if it needs what only Chromium can do. Pages come from
TML_WEB, or from crates/tml_c/out/web.
"""

from __future__ import annotations

import argparse
import atexit
import contextlib
import functools
import http.client
import json
import os
import re
import signal
import socket
import subprocess
import sys
import tempfile
import time
import unittest
from pathlib import Path
from typing import Any
from unittest import mock

import browser
from processes import PATIENCE

Json = dict[str, Any]
SCRIPT_TIME = 20_000
"""Milliseconds that a page has for what a test waits for."""

NARROWEST = 500
"""How broad the window of WebKit is at least, in pixels."""

MINI_BROWSER = "/usr/lib/x86_64-linux-gnu/webkit2gtk-4.1/MiniBrowser"
ELEMENT = "element-6066-11e4-a52e-4f735466cecf"
"""The name of the number of an element in what a driver says."""

KEYS = {"Tab": "\ue004", "Enter": "\ue007", "End": "\ue010", "Home": "\ue011", "ArrowDown": "\ue015", "ArrowUp": "\ue013"}
OF_FIREFOX = {
    "browser.download.folderList": 2,
    "browser.download.always_ask_before_handling_new_types": False,
    "browser.download.alwaysOpenPanel": False,
    "browser.shell.checkDefaultBrowser": False,
    "datareporting.policy.dataSubmissionEnabled": False,
    "app.update.auto": False,
    "dom.events.testing.asyncClipboard": True,
    "network.proxy.type": 1,
    "network.proxy.http": "127.0.0.1",
    "network.proxy.http_port": 9,
}
"""The settings of Firefox, by which it does nothing but what the tests want."""

CLEARED = "Services.console.reset();"
COMPLAINTS = """
return Services.console.getMessageArray().filter((one) => one instanceof Ci.nsIScriptError && /^(file|blob):/.test(one.sourceName))
  .map((one) => one.errorMessage);
"""
"""In Firefox, what it says of a page."""

ACCESSIBLE = """
const [done] = arguments;
const service = Cc["@mozilla.org/accessibilityService;1"].getService(Ci.nsIAccessibilityService);
const all = (one) => [one, ...Array.from({ length: one.childCount }, (_, index) => all(one.getChildAt(index))).flat()];
const look = () => {
  const found = all(service.getAccessibleFor(document)).map((one) => [service.getStringRole(one.role), one.name ?? ""]);
  if (found.some(([, name]) => name === "Choose files")) done(found);
  else setTimeout(look, 50);
};
look();
"""
"""In Firefox, the roles and names that it gives to screen readers."""

ROLES = {"pushbutton": "button", "entry": "textbox", "graphic": "image", "statusbar": "status"}
"""The roles of Firefox that Chromium calls otherwise."""


class Failed(Exception):
    """A driver has answered an error."""


def free_port() -> int:
    """A port that nobody uses."""
    with socket.create_server(("127.0.0.1", 0)) as server:
        return int(server.getsockname()[1])


def ended(child: subprocess.Popen[bytes]) -> None:
    """Ends a program and what it has started."""
    with contextlib.suppress(ProcessLookupError):
        os.killpg(child.pid, signal.SIGTERM)
    child.wait(PATIENCE)


class Marionette:
    """Firefox, by its own protocol: the commands are those of WebDriver, and come one after the other."""

    NAMES = {
        ("POST", "/url"): "WebDriver:Navigate",
        ("POST", "/execute/sync"): "WebDriver:ExecuteScript",
        ("POST", "/execute/async"): "WebDriver:ExecuteAsyncScript",
        ("POST", "/element"): "WebDriver:FindElement",
        ("POST", "/actions"): "WebDriver:PerformActions",
        ("GET", "/screenshot"): "WebDriver:TakeScreenshot",
        ("POST", "/window/rect"): "WebDriver:SetWindowRect",
    }

    def __init__(self) -> None:
        self.folder, port = tempfile.TemporaryDirectory(ignore_cleanup_errors=True), free_port()
        prefs = OF_FIREFOX | {"marionette.port": port}
        lines = [f"user_pref({json.dumps(name)}, {json.dumps(value)});\n" for name, value in prefs.items()]
        Path(self.folder.name, "user.js").write_text("".join(lines), encoding="utf-8")
        words = ["firefox-esr", "--headless", "--marionette", "--remote-allow-system-access", "--no-remote", "--profile", self.folder.name]
        quiet: Any = {"stdout": subprocess.DEVNULL, "stderr": subprocess.DEVNULL, "start_new_session": True}
        self.child = subprocess.Popen(words, env={**os.environ, "HOME": self.folder.name}, **quiet)
        self.stream, self.number = connected(port).makefile("rwb"), 0
        self.received()
        capabilities = self.command("WebDriver:NewSession", {"strictFileInteractability": False})["capabilities"]
        self.version = f"Firefox {capabilities['browserVersion']}"
        self.command("WebDriver:SetTimeouts", {"script": SCRIPT_TIME, "pageLoad": int(1000 * PATIENCE)})

    def received(self) -> Any:
        """The next message: its length, and then its text."""
        length = b""
        while not length.endswith(b":"):
            one = self.stream.read(1)
            if not one:
                raise EOFError("Firefox has ended")
            length += one
        return json.loads(self.stream.read(int(length[:-1])))

    def command(self, name: str, words: Json) -> Any:
        """The answer to a command by its name in this protocol."""
        self.number += 1
        content = json.dumps([0, self.number, name, words]).encode()
        self.stream.write(b"%d:%s" % (len(content), content))
        self.stream.flush()
        _, _, error, result = self.received()
        if error:
            raise Failed(f"{error['error']}: {error['message']}")
        return result["value"] if isinstance(result, dict) and set(result) == {"value"} else result

    def send(self, method: str, path: str, **words: object) -> Any:
        """The answer to a command."""
        if path.endswith("/value"):
            return self.command("WebDriver:ElementSendKeys", {"id": path.split("/")[2], **words})
        return self.command(self.NAMES[method, path], words)

    def privileged(self, script: str, *given: object, is_async: bool = False) -> Any:
        """The value of a script that may do all that the browser may."""
        self.command("Marionette:SetContext", {"value": "chrome"})
        try:
            name = "WebDriver:ExecuteAsyncScript" if is_async else "WebDriver:ExecuteScript"
            return self.command(name, {"script": script, "args": list(given)})
        finally:
            self.command("Marionette:SetContext", {"value": "content"})

    def end(self) -> None:
        """Ends Firefox."""
        with contextlib.suppress(EOFError, OSError):
            self.command("Marionette:Quit", {"flags": ["eForceQuit"]})
        ended(self.child)
        self.folder.cleanup()


def connected(port: int) -> socket.socket:
    """A connection to a port, once somebody listens there."""
    last = time.monotonic() + PATIENCE
    while True:
        try:
            return socket.create_connection(("127.0.0.1", port), PATIENCE)
        except OSError:
            if time.monotonic() > last:
                raise
            time.sleep(0.1)


class WebKit:
    """WebKit in its smallest browser, on a screen that nobody sees."""

    def __init__(self) -> None:
        self.folder, port = tempfile.TemporaryDirectory(ignore_cleanup_errors=True), free_port()
        settings = Path(self.folder.name, ".config", "user-dirs.dirs")
        settings.parent.mkdir()
        settings.write_text('XDG_DOWNLOAD_DIR="$HOME/saved"\n', encoding="utf-8")
        environment = {**os.environ, "HOME": self.folder.name, "XDG_CONFIG_HOME": str(settings.parent)}
        environment |= {"WEBKIT_DISABLE_COMPOSITING_MODE": "1", "NO_AT_BRIDGE": "1"}
        words = ["xvfb-run", "-a", "-s", "-screen 0 1600x1000x24", "WebKitWebDriver", f"--port={port}"]
        quiet: Any = {"stdout": subprocess.DEVNULL, "stderr": subprocess.DEVNULL, "start_new_session": True}
        self.child = subprocess.Popen(words, env=environment, **quiet)
        connected(port).close()
        self.connection, self.session = http.client.HTTPConnection("127.0.0.1", port, timeout=PATIENCE), ""
        options = {"webkitgtk:browserOptions": {"binary": MINI_BROWSER, "args": ["--automation"]}}
        made = self.send("POST", "/session", capabilities={"alwaysMatch": options})
        self.session = f"/session/{made['sessionId']}"
        self.version = f"{made['capabilities']['browserName']} {made['capabilities']['browserVersion']}"
        self.send("POST", "/timeouts", script=SCRIPT_TIME, pageLoad=int(1000 * PATIENCE))

    def send(self, method: str, path: str, **words: object) -> Any:
        """The answer to a command."""
        body = json.dumps(words) if method == "POST" else None
        self.connection.request(method, self.session + path, body, {"Content-Type": "application/json"})
        value = json.loads(self.connection.getresponse().read())["value"]
        if isinstance(value, dict) and "error" in value:
            raise Failed(f"{value['error']}: {value['message']}")
        return value

    def end(self) -> None:
        """Ends the browser and its screen."""
        with contextlib.suppress(OSError, Failed, http.client.HTTPException):
            self.send("DELETE", "")
        ended(self.child)
        self.folder.cleanup()


DRIVERS: dict[str, type[Marionette] | type[WebKit]] = {"firefox": Marionette, "webkit": WebKit}


@functools.cache
def running(name: str) -> Marionette | WebKit:
    """The browser of this process, which starts once and ends with it."""
    driver = DRIVERS[name]()
    atexit.register(driver.end)
    print(driver.version, file=sys.stderr)
    return driver


class Page:
    """A page in such a browser, with all that the tests want of `browser.Browser`."""

    def __init__(self, driver: Marionette | WebKit) -> None:
        self.driver, self.context, self.heard = driver, None, list[str]()
        self.resize(1400)

    def __enter__(self) -> Page:
        return self

    def __exit__(self, *error: object) -> None:
        self.driver.send("POST", "/url", url="about:blank")

    @property
    def said(self) -> list[str]:
        """What the browser says of the page. WebKit's driver does not tell."""
        if isinstance(self.driver, Marionette):
            self.heard += self.driver.privileged(COMPLAINTS)
            self.driver.privileged(CLEARED)
        return self.heard

    def open(self, path: str) -> None:
        """Opens a file."""
        if isinstance(self.driver, Marionette):
            self.driver.privileged(CLEARED)
        self.driver.send("POST", "/url", url=Path(path).resolve().as_uri())

    def script(self, text: str, *given: object, **more: object) -> Any:
        """The value of a script."""
        return self.driver.send("POST", "/execute/sync", script=text, args=list(given), **more)

    def value(self, expression: str) -> Any:
        """The value of an expression in the page, or nothing of statements."""
        try:
            return self.script(f"return ({expression})")
        except Failed as problem:
            if not re.search("SyntaxError|Unexpected token", str(problem)):
                raise
            return self.script(expression)

    def until(self, expression: str) -> None:
        """Waits until an expression is true."""
        self.value(f"new Promise((done) => {{ const look = () => ({expression} ? done() : setTimeout(look, 5)); look(); }})")

    def press(self, key: str, _code: int = 0) -> None:
        """Presses a key."""
        actions = [{"type": kind, "value": KEYS[key]} for kind in ("keyDown", "keyUp")]
        self.driver.send("POST", "/actions", actions=[{"type": "key", "id": "keyboard", "actions": actions}])

    def resize(self, width: int, height: int = 900) -> None:
        """Makes the page so broad."""
        if isinstance(self.driver, Marionette):
            self.driver.send("POST", "/window/rect", width=1500, height=height + 100)
            self.driver.privileged("gBrowser.selectedBrowser.style.maxWidth = arguments[0];", f"{width}px")
            self.until(f"innerWidth === {width}")
        else:
            self.driver.send("POST", "/window/rect", x=0, y=0, width=width, height=height)
            if width < NARROWEST:
                raise unittest.SkipTest("the window of WebKit cannot be so narrow")
            self.until(f"innerWidth === {width}")

    # The tests send commands of Chromium. The methods below have the names and arguments of these commands.

    def ask(self, method: str, **words: Any) -> Json:
        """What Chromium answers to a command, as far as the tests need it."""
        return getattr(self, f"_{method.split('.')[1]}", self._other)(**words) or {}

    def _other(self, **_words: object) -> Json:
        raise unittest.SkipTest("only Chromium can do this")

    def _evaluate(self, expression: str, **_words: object) -> Json:
        return {"result": {"value": self.value(expression)}}

    def _insertText(self, text: str) -> None:
        self.script("document.execCommand('insertText', false, arguments[0])", text)

    def _dispatchKeyEvent(self, type: str, key: str, **_words: object) -> None:
        if type == "keyDown":
            self.press(key)

    def _setDeviceMetricsOverride(self, width: int, height: int, **_words: object) -> None:
        self.resize(width, height)

    def _setEmulatedMedia(self, features: list[Json]) -> None:
        if not isinstance(self.driver, Marionette):
            return
        is_dark = features[0]["value"] == "dark"
        set_to = "Services.prefs.setIntPref('layout.css.prefers-color-scheme.content-override', arguments[0])"
        self.driver.privileged(set_to, 0 if is_dark else 1)
        self.until(f"matchMedia('(prefers-color-scheme: dark)').matches === {str(is_dark).lower()}")

    def _setDownloadBehavior(self, downloadPath: str, **_words: object) -> None:
        if isinstance(self.driver, Marionette):
            self.driver.privileged("Services.prefs.setStringPref('browser.download.dir', arguments[0])", downloadPath)
            return
        saved = Path(self.driver.folder.name, "saved")
        saved.unlink(missing_ok=True)
        saved.symlink_to(downloadPath)

    def _getDocument(self) -> Json:
        return {"root": {"nodeId": 0}}

    def _querySelector(self, selector: str, **_words: object) -> Json:
        return {"nodeId": self.driver.send("POST", "/element", using="css selector", value=selector)}

    def _setFileInputFiles(self, nodeId: Json, files: list[str]) -> None:
        if not Path(files[0]).is_dir():
            self.driver.send("POST", f"/element/{nodeId[ELEMENT]}/value", text="\n".join(files))
        else:
            self._other()

    def _getFullAXTree(self) -> Json:
        if not isinstance(self.driver, Marionette):
            return self._other()
        found = self.driver.command("WebDriver:ExecuteAsyncScript", {"script": ACCESSIBLE, "args": [], "sandbox": "system"})
        return {"nodes": [{"role": {"value": ROLES.get(role, role)}, "name": {"value": name}} for role, name in found]}


def main() -> None:
    """Runs the tests."""
    parser = argparse.ArgumentParser(description=__doc__, formatter_class=argparse.RawDescriptionHelpFormatter)
    parser.add_argument("browser", choices=DRIVERS)
    parser.add_argument("names", nargs="*", metavar="NAME")
    given = parser.parse_args()
    with mock.patch.object(browser, "needs_browser", lambda one: one):
        import test_web_page
        import test_web_pane
    suites = [
        unittest.defaultTestLoader.loadTestsFromName(name, module)
        for name in given.names
        for module in (test_web_page, test_web_pane)
        if hasattr(module, name.split(".")[0])
    ]
    suites = suites or list(map(unittest.defaultTestLoader.loadTestsFromModule, (test_web_page, test_web_pane)))
    paste = test_web_page.Given.test_a_paste
    if given.browser == "firefox":
        paste = unittest.skip("scripts cannot paste in Firefox")(paste)
    opened = mock.patch.object(test_web_page, "opened", lambda: Page(running(given.browser)))
    with opened, mock.patch.object(test_web_page.Given, "test_a_paste", paste):
        done = unittest.TextTestRunner(verbosity=2).run(unittest.TestSuite(suites))
    sys.exit(not done.wasSuccessful())


if __name__ == "__main__":
    main()
