"""Opens pages in Chromium without a window, and clicks, types, reads and takes pictures by the
browser's own debugging interface.

`Browser()` is for a `with`. Where no Chromium is there, `find()` is None; CHROMIUM names another
one.
"""
from __future__ import annotations

import base64
import json
import os
import pathlib
import select
import shutil
import subprocess
import tempfile
import time
from typing import Any, Optional

NAMES = ("chromium", "chromium-browser", "google-chrome", "chrome")
DRAWN = "new Promise((done) => requestAnimationFrame(() => requestAnimationFrame(done)))"
LONGEST, PATIENCE = 300, 240  # seconds for an answer, and for a value that a page comes to
OPTIONS = (
    "--headless=new",
    "--no-sandbox",
    "--disable-gpu",
    "--hide-scrollbars",
    "--no-first-run",
    "--disable-extensions",
    "--disable-dev-shm-usage",
    "--disable-background-networking",
    "--disable-component-update",
    "--disable-sync",
    "--remote-debugging-pipe",
    "--force-device-scale-factor=1",
)


class BrowserFault(Exception):
    """The browser does not do what it is asked."""


def find() -> Optional[str]:
    """The path of the browser, or None."""
    named = os.environ.get("CHROMIUM")
    return shutil.which(named) if named else next(filter(None, map(shutil.which, NAMES)), None)


class Browser:
    """A browser without a window, for a `with`."""

    def __enter__(self) -> Browser:
        self.folder = tempfile.mkdtemp()
        to_read, self.to = os.pipe()
        self.back, to_write = os.pipe()

        def place() -> None:
            """The browser reads commands from descriptor 3 and writes what comes of them to 4."""
            for number, new in ((os.dup(to_read), 3), (os.dup(to_write), 4)):
                os.dup2(number, new)

        words = [find() or NAMES[0], *OPTIONS, f"--user-data-dir={self.folder}", "about:blank"]
        nothing = subprocess.DEVNULL
        self.process = subprocess.Popen(
            words, stdin=nothing, stdout=nothing, stderr=nothing, close_fds=False, preexec_fn=place
        )
        os.close(to_read)
        os.close(to_write)
        self.left, self.number = b"", 0
        self.session: Optional[str] = None
        target = self.ask("Target.createTarget", url="about:blank")["targetId"]
        self.session = self.ask("Target.attachToTarget", targetId=target, flatten=True)["sessionId"]
        self.ask("Page.enable")
        return self

    def __exit__(self, *_: object) -> None:
        try:
            self.session = None
            self.ask("Browser.close")
            self.process.wait(10)
        except (BrowserFault, OSError, subprocess.TimeoutExpired):
            self.process.kill()
            self.process.wait()
        for number in (self.to, self.back):
            os.close(number)
        shutil.rmtree(self.folder, ignore_errors=True)

    def message(self, until: float) -> dict[str, Any]:
        """The next message of the browser."""
        while b"\0" not in self.left:
            ready, _, _ = select.select([self.back], [], [], max(0, until - time.monotonic()))
            some = os.read(self.back, 1 << 20) if ready else b""
            if not some:
                raise BrowserFault(
                    "the browser has ended"
                    if ready
                    else f"the browser says nothing for {LONGEST} seconds"
                )
            self.left += some
        text, _, self.left = self.left.partition(b"\0")
        told: dict[str, Any] = json.loads(text)
        return told

    def ask(self, method: str, of_browser: bool = False, **parameters: Any) -> dict[str, Any]:
        """What comes of a command to the page, or to the browser."""
        self.number += 1
        told: dict[str, Any] = {"id": self.number, "method": method, "params": parameters}
        if self.session and not of_browser:
            told["sessionId"] = self.session
        os.write(self.to, json.dumps(told).encode() + b"\0")
        until = time.monotonic() + LONGEST
        while True:
            message = self.message(until)
            if message.get("id") == self.number:
                if "error" in message:
                    raise BrowserFault(f"{method}: {message['error'].get('message')}")
                result: dict[str, Any] = message["result"]
                return result

    def wait_for(self, event: str) -> None:
        """Waits for an event of the page."""
        until = time.monotonic() + LONGEST
        while self.message(until).get("method") != event:
            pass

    def processor_time(self) -> float:
        """The seconds of processors that all processes of the browser have taken so far."""
        return sum(
            float(process["cpuTime"])
            for process in self.ask("SystemInfo.getProcessInfo", of_browser=True)["processInfo"]
        )

    # what a reader does

    def size(self, width: int, height: int, is_dark: bool = False) -> None:
        """Gives the window a size and a scheme of colours."""
        self.ask(
            "Emulation.setDeviceMetricsOverride",
            width=width,
            height=height,
            deviceScaleFactor=1,
            mobile=False,
        )
        self.ask(
            "Emulation.setEmulatedMedia",
            features=[{"name": "prefers-color-scheme", "value": "dark" if is_dark else "light"}],
        )

    def open(self, address: str, scripts: bool = True) -> float:
        """Opens a page, and gives the seconds of processors that it takes until it is there and
        drawn.
        """
        self.ask("Emulation.setScriptExecutionDisabled", value=not scripts)
        for place in ("about:blank", address):
            begin = self.processor_time()
            self.ask("Page.navigate", url=place)
            self.wait_for("Page.loadEventFired")
        self.ask("Page.captureScreenshot", format="jpeg", quality=1)
        return self.processor_time() - begin

    def value(self, script: str) -> Any:
        """The value of a script."""
        done = self.ask(
            "Runtime.evaluate", expression=script, returnByValue=True, awaitPromise=True
        )
        if "exceptionDetails" in done:
            thrown = done["exceptionDetails"].get("exception", {})
            raise BrowserFault(f"{script[:80]}: {thrown.get('description', '')[:200]}")
        return done["result"].get("value")

    def comes_to(self, script: str, wanted: int) -> Any:
        """The value of a script as soon as it is this one, or after a long while."""
        return self.value(
            f"new Promise((done) => {{ const end = Date.now() + {1000 * PATIENCE};"
            f" const look = () => {{ const value = {script};"
            f" if (value === {wanted} || Date.now() > end) done(value); else setTimeout(look, 20);"
            " }; look(); })"
        )

    def click(self, selector: str) -> None:
        """Clicks the middle of the first element that a selector names, where it stands on the
        screen once that is drawn.
        """
        self.value(
            f"document.querySelector({json.dumps(selector)})"
            ".scrollIntoView({block: 'center', inline: 'center'})"
        )
        self.value(DRAWN)
        place = self.value(
            f"(() => {{ const e = document.querySelector({json.dumps(selector)});"
            " const b = e.getBoundingClientRect();"
            " return [b.x + b.width / 2, b.y + b.height / 2]; })()"
        )
        for kind in ("mousePressed", "mouseReleased"):
            self.ask(
                "Input.dispatchMouseEvent",
                type=kind,
                x=place[0],
                y=place[1],
                button="left",
                clickCount=1,
            )

    def key(self, key: str, code: int = 0) -> None:
        """Strikes a key."""
        for kind in ("keyDown", "keyUp"):
            self.ask(
                "Input.dispatchKeyEvent", type=kind, key=key, code=key, windowsVirtualKeyCode=code
            )

    def picture(self, name: pathlib.Path) -> None:
        """Takes a picture of the window."""
        with open(name, "wb") as file:
            file.write(base64.b64decode(self.ask("Page.captureScreenshot", format="png")["data"]))
