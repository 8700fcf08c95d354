"""Chromium without a window, led by its DevTools protocol over a pipe: as much of it as the check needs."""
from __future__ import annotations

import fcntl
import json
import os
import select
import shutil
import subprocess
import tempfile
import time
from base64 import b64decode
from pathlib import Path
from typing import Any

NAMES = ("chromium", "chromium-browser", "google-chrome")
OPTIONS = (
    "--headless=new", "--remote-debugging-pipe", "--no-sandbox", "--disable-gpu", "--disable-dev-shm-usage",
    "--no-first-run", "--hide-scrollbars", "about:blank")
KEYS = {"Tab": (9, ""), "Enter": (13, "\r"), " ": (32, " ")}


def chromium() -> str | None:
    """Where it is, or None."""
    return next((found for found in (shutil.which(name) for name in NAMES) if found), None)


class Page:
    """A page of a Chromium of its own."""

    def __init__(self, program: str) -> None:
        self._profile = tempfile.mkdtemp()
        their_in, self._out = _pipe()
        self._in, their_out = _pipe()

        def place() -> None:
            os.dup2(their_in, 3)
            os.dup2(their_out, 4)

        # all that Python opens is closed there, but for 3 and 4, at which Chromium looks
        words = [program, f"--user-data-dir={self._profile}", *OPTIONS]
        self._process = subprocess.Popen(
            words, close_fds=False, preexec_fn=place, start_new_session=True,
            stdin=subprocess.DEVNULL, stdout=subprocess.DEVNULL, stderr=subprocess.DEVNULL)
        os.close(their_in)
        os.close(their_out)
        self._unread, self._count, self._session = b"", 0, ""
        self.faults: list[str] = []
        target = self.call("Target.createTarget", url="about:blank")["targetId"]
        self._session = self.call("Target.attachToTarget", targetId=target, flatten=True)["sessionId"]
        for domain in ("Page", "Runtime", "Log"):
            self.call(f"{domain}.enable")

    def close(self) -> None:
        try:
            self._session = ""
            self.call("Browser.close")
            self._process.wait(10)
        except (OSError, TimeoutError, subprocess.TimeoutExpired):
            self._process.kill()
            self._process.wait(10)
        os.close(self._in)
        os.close(self._out)
        shutil.rmtree(self._profile, ignore_errors=True)

    def call(self, method: str, **parameters: Any) -> Any:
        """The result of a method of the protocol."""
        self._count += 1
        number, message = self._count, {"id": self._count, "method": method, "params": parameters}
        if self._session:
            message["sessionId"] = self._session
        text = json.dumps(message).encode() + b"\0"
        while text:
            text = text[os.write(self._out, text):]
        while True:
            said = self._read(60)
            if said.get("id") == number:
                assert "error" not in said, (method, said)
                return said["result"]
            self._note(said)

    def _read(self, seconds: float) -> Any:
        end = time.monotonic() + seconds
        while b"\0" not in self._unread:
            if not select.select([self._in], [], [], max(0, end - time.monotonic()))[0]:
                raise TimeoutError("chromium does not answer")
            more = os.read(self._in, 1_000_000)
            if not more:
                raise ConnectionError("chromium has ended")
            self._unread += more
        message, _, self._unread = self._unread.partition(b"\0")
        return json.loads(message)

    def _note(self, said: Any) -> None:
        """Keeps what went wrong in the page. An answer of the service that is a refusal is no fault."""
        if said.get("method") == "Runtime.exceptionThrown":
            self.faults.append(str(said["params"]["exceptionDetails"]))
        elif said.get("method") == "Log.entryAdded" and said["params"]["entry"]["source"] != "network":
            self.faults.append(str(said["params"]["entry"]))

    def get(self, expression: str) -> Any:
        """The value of an expression of JavaScript in the page."""
        said = self.call("Runtime.evaluate", expression=expression, awaitPromise=True, returnByValue=True)
        assert "exceptionDetails" not in said, (expression, said)
        return said["result"].get("value")

    def wait(self, expression: str) -> Any:
        """The value, once it is true."""
        end = time.monotonic() + 30
        while time.monotonic() < end:
            value = self.get(expression)
            if value:
                return value
            time.sleep(0.05)
        raise AssertionError(f"the page never came to this: {expression}")

    def open(self, address: str) -> None:
        self.call("Page.navigate", url=address)

    def press(self, key: str) -> None:
        number, text = KEYS[key]
        about = {"key": key, "code": "Space" if key == " " else key, "windowsVirtualKeyCode": number}
        self.call("Input.dispatchKeyEvent", type="keyDown" if text else "rawKeyDown", text=text, **about)
        self.call("Input.dispatchKeyEvent", type="keyUp", **about)

    def type(self, text: str) -> None:
        self.call("Input.insertText", text=text)

    def look(self, width: int, height: int, scheme: str = "light") -> None:
        """The size of the window, and whether it is light or dark."""
        size = {"width": width, "height": height, "deviceScaleFactor": 1, "mobile": width < 600}
        self.call("Emulation.setDeviceMetricsOverride", **size)
        self.call("Emulation.setEmulatedMedia", features=[{"name": "prefers-color-scheme", "value": scheme}])

    def picture(self, file: Path, whole: bool) -> None:
        said = self.call("Page.captureScreenshot", format="png", captureBeyondViewport=whole)
        file.write_bytes(b64decode(said["data"]))

    def unnamed(self) -> list[str]:
        """What can be used in the page and has no name for a screen reader."""
        nodes = self.call("Accessibility.getFullAXTree")["nodes"]
        used = {"button", "checkbox", "link", "radio", "textbox", "Date", "DisclosureTriangle"}
        return [str(node) for node in nodes if not node["ignored"] and node.get("role", {}).get("value") in used
                and not node.get("name", {}).get("value")]


def _pipe() -> tuple[int, int]:
    """A pipe whose ends are numbered 10 or more, so that they are not in the place of those that Chromium gets."""
    ends = os.pipe()
    high = tuple(fcntl.fcntl(end, fcntl.F_DUPFD_CLOEXEC, 10) for end in ends)
    for end in ends:
        os.close(end)
    return high[0], high[1]
