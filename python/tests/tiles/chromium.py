"""Headless Chromium, driven over its DevTools pipe (--remote-debugging-pipe) by the standard library alone."""

import base64
import contextlib
import fcntl
import json
import os
import select
import shutil
import tempfile
import time
from pathlib import Path
from typing import Any

from support import LONGEST, until

FLAGS = [
    "--headless=new", "--disable-gpu", "--disable-dev-shm-usage", "--no-first-run", "--remote-debugging-pipe",
    "--disable-background-networking", "--disable-component-update", "--disable-sync",
]  # fmt: skip
FAULTS = ("Runtime.exceptionThrown", "Log.entryAdded", "Runtime.consoleAPICalled")


class Chromium:
    """A browser with one page. What the page throws, or says on its console, is gathered in `faults`."""

    def __init__(self, wide: int, high: int) -> None:
        self._home = tempfile.mkdtemp(prefix="rtfilter-chromium-")
        self._left, self._number, self._session = b"", 0, None
        self.faults: list[Any] = []
        self._start(wide, high)
        try:
            page = self.call("Target.createTarget", url="about:blank")["targetId"]
            self._session = self.call("Target.attachToTarget", targetId=page, flatten=True)["sessionId"]
            self.resize(wide, high)
            for domain in ("Page", "Runtime", "Log"):
                self.call(f"{domain}.enable")
        except BaseException:
            self.close()
            raise

    def resize(self, wide: int, high: int) -> None:
        metrics = {"width": wide, "height": high, "deviceScaleFactor": 1, "mobile": False}
        self.call("Emulation.setDeviceMetricsOverride", **metrics)

    def _start(self, wide: int, high: int) -> None:
        """The browser reads file 3 and writes file 4. Its ends of the pipes lie above: neither hides the other."""
        its_input, self._input = os.pipe()
        self._output, its_output = os.pipe()
        ends = [fcntl.fcntl(file, fcntl.F_DUPFD_CLOEXEC, 10) for file in (its_input, its_output)]
        words = ["chromium", *FLAGS, f"--user-data-dir={self._home}", f"--window-size={wide},{high}"]
        if os.geteuid() == 0:
            words.append("--no-sandbox")  # as root it ends at once otherwise
        actions: list[Any] = [(os.POSIX_SPAWN_OPEN, file, "/dev/null", os.O_RDWR, 0) for file in (0, 1, 2)]
        actions += [(os.POSIX_SPAWN_DUP2, end, file) for end, file in zip(ends, (3, 4))]
        self._process = os.posix_spawnp("chromium", [*words, "about:blank"], os.environ, file_actions=actions)
        for file in (its_input, its_output, *ends):
            os.close(file)

    def call(self, method: str, **parameters: Any) -> dict[str, Any]:
        """What a method of the protocol answers."""
        self._number += 1
        message = {"id": self._number, "method": method, "params": parameters}
        if self._session:
            message["sessionId"] = self._session
        os.write(self._input, json.dumps(message).encode() + b"\0")
        while True:
            answer = self._message(method)
            if answer.get("method") in FAULTS:
                self.faults.append(answer["params"])
            if answer.get("id") == self._number:
                if "error" in answer:
                    raise RuntimeError(f"{method}: {answer['error']}")
                result: dict[str, Any] = answer["result"]
                return result

    def _message(self, method: str) -> dict[str, Any]:
        """The next message, an answer or an event; each ends with a null byte."""
        while b"\0" not in self._left:
            if not select.select([self._output], [], [], LONGEST)[0]:
                raise TimeoutError(method)
            piece = os.read(self._output, 1 << 20)
            if not piece:
                raise RuntimeError(f"{method}: chromium has ended")
            self._left += piece
        text, self._left = self._left.split(b"\0", 1)
        message: dict[str, Any] = json.loads(text)
        return message

    def value(self, expression: str) -> Any:
        """The value of an expression of JavaScript in the page."""
        evaluated = self.call("Runtime.evaluate", expression=expression, awaitPromise=True, returnByValue=True)
        if "exceptionDetails" in evaluated:
            raise RuntimeError(evaluated["exceptionDetails"])
        return evaluated["result"].get("value")

    def until(self, expression: str) -> Any:
        """The value of an expression once it is true."""
        return until(lambda: self.value(expression), expression)

    def open(self, address: str) -> None:
        self.call("Page.navigate", url=address)

    def mouse(self, kind: str, x: int, y: int, **more: Any) -> None:
        self.call("Input.dispatchMouseEvent", type=kind, x=x, y=y, **more)

    def drag(self, start: tuple[int, int], end: tuple[int, int]) -> None:
        self.mouse("mousePressed", *start, button="left", clickCount=1)
        self.mouse("mouseMoved", *end, button="left", buttons=1)
        self.mouse("mouseReleased", *end, button="left", clickCount=1)

    def click(self, x: int, y: int) -> None:
        self.drag((x, y), (x, y))

    def wheel(self, x: int, y: int, turn: int) -> None:
        self.mouse("mouseWheel", x, y, deltaX=0, deltaY=turn)

    def touch(self, kind: str, *places: tuple[int, int]) -> None:
        """Fingers at some places: after a `touchEnd` those that are left."""
        points = [{"x": x, "y": y, "id": id} for id, (x, y) in enumerate(places)]
        self.call("Input.dispatchTouchEvent", type=kind, touchPoints=points)

    def type(self, text: str) -> None:
        """Types into what has the focus, and ends with the Enter key."""
        self.call("Input.insertText", text=text)
        enter = {"key": "Enter", "code": "Enter", "windowsVirtualKeyCode": 13, "text": "\r"}
        self.call("Input.dispatchKeyEvent", type="keyDown", **enter)
        self.call("Input.dispatchKeyEvent", type="keyUp", key="Enter", code="Enter")

    def picture(self, file: Path) -> None:
        file.write_bytes(base64.b64decode(self.call("Page.captureScreenshot")["data"]))

    def close(self) -> None:
        self._session = None
        with contextlib.suppress(RuntimeError, OSError):
            self.call("Browser.close")
        os.close(self._input)
        os.close(self._output)
        end = time.monotonic() + LONGEST
        while os.waitpid(self._process, os.WNOHANG) == (0, 0):
            if time.monotonic() > end:
                os.kill(self._process, 9)
            time.sleep(0.02)
        shutil.rmtree(self._home, ignore_errors=True)
