"""A headless Chromium for tests and for pictures of pages, spoken to over a pipe in its own protocol (Chrome DevTools Protocol).

    with Browser() as browser:
        page = browser.open("file:///FOLDER/report.html")
        page.value("document.title")

Where there is no Chromium, `program()` is None.
"""

import base64
import fcntl
import json
import os
import shutil
import subprocess
import tempfile
import time

LIMIT = 30  # seconds for an answer


class Failed(Exception):
    """What the browser says of a page that can't do what is asked."""


def program():
    """Returns the Chromium of this machine, or None where it has none or the environment has NO_BROWSER."""
    if os.environ.get("NO_BROWSER"):
        return None
    return next(filter(None, map(shutil.which, ["chromium", "chromium-browser", "google-chrome"])), None)


class Browser:
    """A Chromium with a folder of its own, which ends with the block that it is made for."""

    def __enter__(self):
        self.room = tempfile.TemporaryDirectory(prefix="browser-", ignore_cleanup_errors=True)
        # (it reads commands from file 3 and writes answers to file 4; numbers above these stay clear of both)
        reads, self.commands = os.pipe()
        self.answers, writes = os.pipe()
        ends = [fcntl.fcntl(end, fcntl.F_DUPFD, 20) for end in (reads, writes)]
        os.close(reads)
        os.close(writes)
        words = ["--headless=new", "--remote-debugging-pipe", f"--user-data-dir={self.room.name}", "--window-size=1100,800"]
        words += ["--disable-gpu", "--no-first-run", "--disable-extensions", "--disable-background-networking", "--disable-dev-shm-usage"]
        if os.geteuid() == 0:
            words.append("--no-sandbox")
        # (HOME and the like are its own folder, so that it leaves nothing elsewhere)
        shell = f'exec "$0" "$@" 3<&{ends[0]} 4>&{ends[1]}'
        self.started = subprocess.Popen(
            ["bash", "-c", shell, program(), *words],
            stdin=subprocess.DEVNULL, stdout=subprocess.DEVNULL, stderr=subprocess.DEVNULL,
            pass_fds=ends, env={**os.environ, "HOME": self.room.name, "XDG_CONFIG_HOME": self.room.name, "XDG_CACHE_HOME": self.room.name},
        )
        for end in ends:
            os.close(end)
        self.number, self.left, self.errors = 0, b"", []
        return self

    def __exit__(self, *_):
        os.close(self.commands)
        self.started.kill()
        self.started.wait()
        os.close(self.answers)
        self.room.cleanup()

    def take(self):
        """Returns the next message of the browser."""
        while b"\0" not in self.left:
            more = os.read(self.answers, 1 << 20)
            if not more:
                raise Failed("the browser ended")
            self.left += more
        message, self.left = self.left.split(b"\0", 1)
        return json.loads(message)

    def ask(self, method, session=None, **words):
        """Asks for something, and returns the answer. Errors that a page tells on the way are kept."""
        self.number += 1
        command = {"id": self.number, "method": method, "params": words, **({"sessionId": session} if session else {})}
        left = memoryview(json.dumps(command).encode() + b"\0")
        while left:
            left = left[os.write(self.commands, left) :]
        while True:
            message = self.take()
            if message.get("id") == self.number:
                if "error" in message:
                    raise Failed(message["error"])
                return message["result"]
            self.note(message)

    def note(self, message):
        """Keeps what a page tells of an error."""
        told = message.get("params", {})
        is_error = message.get("method") == "Runtime.exceptionThrown"
        is_error |= message.get("method") == "Runtime.consoleAPICalled" and told.get("type") in ("error", "assert")
        is_error |= message.get("method") == "Log.entryAdded" and told["entry"]["level"] == "error"
        if is_error:
            self.errors.append(told)

    def open(self, address):
        """Opens a page, and returns it once it is loaded."""
        target = self.ask("Target.createTarget", url="about:blank")["targetId"]
        session = self.ask("Target.attachToTarget", targetId=target, flatten=True)["sessionId"]
        for domain in ("Runtime", "Log", "Page"):
            self.ask(f"{domain}.enable", session)
        page = Page(self, session)
        self.ask("Page.navigate", session, url=address)
        page.wait("document.readyState == 'complete' && location.href != 'about:blank'")
        return page


class Page:
    """A page that is open."""

    def __init__(self, browser, session):
        self.browser, self.session = browser, session

    def value(self, expression):
        """Returns the value of an expression of its script, once it is there."""
        answer = self.browser.ask("Runtime.evaluate", self.session, expression=expression, returnByValue=True, awaitPromise=True)
        if "exceptionDetails" in answer:
            raise Failed(answer["exceptionDetails"])
        return answer["result"].get("value")

    def wait(self, expression):
        """Waits until an expression is true."""
        end = time.monotonic() + LIMIT
        while not self.value(expression):
            if time.monotonic() > end:
                raise Failed(f"it isn't so after {LIMIT} seconds: {expression}")
            time.sleep(0.02)

    def key(self, name, code, text=""):
        """Presses a key and releases it."""
        for kind in ("keyDown" if text else "rawKeyDown", "keyUp"):
            words = {"text": text} if text and kind == "keyDown" else {}
            self.browser.ask("Input.dispatchKeyEvent", self.session, type=kind, key=name, code=name, windowsVirtualKeyCode=code, **words)

    def resize(self, width, height):
        """Shows it in a window of that size."""
        words = {"width": width, "height": height, "deviceScaleFactor": 1, "mobile": False}
        self.browser.ask("Emulation.setDeviceMetricsOverride", self.session, **words)

    def picture(self, width, height, scale=1):
        """Returns a picture of its top left corner, as the bytes of a PNG."""
        clip = {"x": 0, "y": 0, "width": width, "height": height, "scale": scale}
        answer = self.browser.ask("Page.captureScreenshot", self.session, format="png", clip=clip, captureBeyondViewport=True)
        return base64.b64decode(answer["data"])
