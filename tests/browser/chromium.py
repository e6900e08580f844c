"""A headless Chromium with one page, driven over the DevTools protocol by two pipes."""

import base64
import json
import os
import select
import signal
import subprocess
import tempfile
import time
import zlib
from pathlib import Path
from typing import Any

from maplabel_kit.faults import Fault


__all__ = ["Browser", "Fault"]


class Browser:
    """One page of a size, with a mouse or with touch."""

    def __init__(
        self, width: int = 1280, height: int = 800, touch: bool = False, density: float = 1
    ) -> None:
        self.size, self.touch = (width, height), touch
        self.profile = tempfile.TemporaryDirectory(prefix="maplabel-browser-")
        child_reads, self.writes = os.pipe()
        self.reads, child_writes = os.pipe()
        # Chromium reads its orders from file 3 and writes to file 4.
        order = 'exec 3<&%d 4>&%d; exec chromium "$@"' % (child_reads, child_writes)
        words = [
            "--headless",
            "--remote-debugging-pipe",
            "--no-sandbox",
            "--disable-gpu",
            "--hide-scrollbars",
            "--user-data-dir=" + self.profile.name,
            "--window-size=%d,%d" % self.size,
            "about:blank",
        ]
        self.process = subprocess.Popen(
            ["bash", "-c", order, "bash", *words],
            pass_fds=(child_reads, child_writes),
            stdout=subprocess.DEVNULL,
            stderr=subprocess.DEVNULL,
            start_new_session=True,
        )
        os.close(child_reads)
        os.close(child_writes)
        self.rest, self.number, self.session = b"", 0, None
        self.heard: list[str] = []
        page = next(t for t in self.call("Target.getTargets")["targetInfos"] if t["type"] == "page")
        self.session = self.call("Target.attachToTarget", targetId=page["targetId"], flatten=True)[
            "sessionId"
        ]
        self.call(
            "Emulation.setDeviceMetricsOverride",
            width=width,
            height=height,
            deviceScaleFactor=density,
            mobile=touch,
        )
        if touch:
            self.call("Emulation.setTouchEmulationEnabled", enabled=True, maxTouchPoints=2)
        self.call("Page.enable")
        self.call("Runtime.enable")

    def __enter__(self) -> "Browser":
        return self

    def __exit__(self, *_: object) -> None:
        self.end()

    def call(self, method: str, **words: Any) -> Any:
        """The result of one order."""
        self.number += 1
        order = {"id": self.number, "method": method, "params": words}
        if self.session:
            order["sessionId"] = self.session
        os.write(self.writes, json.dumps(order).encode() + b"\0")
        while True:
            told = self._next(90)
            self._hear(told)
            if told.get("id") == self.number:
                if "error" in told:
                    raise Fault("%s: %s" % (method, told["error"]))
                return told["result"]

    def _hear(self, told: dict[str, Any]) -> None:
        """Keeps what a page says in its console, and what it does not catch."""
        words = told.get("params", {})
        if told.get("method") == "Runtime.consoleAPICalled":
            self.heard.append(
                " ".join(str(one.get("value", one.get("description", ""))) for one in words["args"])
            )
        elif told.get("method") == "Runtime.exceptionThrown":
            self.heard.append(
                "uncaught: " + words["exceptionDetails"].get("exception", {}).get("description", "")
            )

    def _next(self, seconds: float) -> dict[str, Any]:
        end = time.monotonic() + seconds
        while b"\0" not in self.rest:
            if not select.select([self.reads], [], [], max(0, end - time.monotonic()))[0]:
                raise Fault("the browser has not answered within %d seconds" % seconds)
            part = os.read(self.reads, 1 << 20)
            if not part:
                raise Fault("the browser has ended")
            self.rest += part
        text, _, self.rest = self.rest.partition(b"\0")
        told: dict[str, Any] = json.loads(text)
        return told

    def tell(self, script: str) -> Any:
        """The value of a script of the page."""
        got = self.call(
            "Runtime.evaluate", expression=script, returnByValue=True, awaitPromise=True
        )
        if "exceptionDetails" in got:
            raise Fault(
                "%s: %s"
                % (script[:200], got["exceptionDetails"]["exception"].get("description", ""))
            )
        return got["result"].get("value")

    def wait(self, script: str, what: str, seconds: float = 45) -> None:
        end = time.monotonic() + seconds
        while not self.tell(script):
            if time.monotonic() > end:
                raise Fault("after %d seconds not so: %s" % (seconds, what))
            time.sleep(0.02)

    def open(self, address: str) -> None:
        self.call("Page.navigate", url="about:blank")
        self.call("Page.navigate", url=address)
        self.wait('document.readyState === "complete"', "the page has loaded")

    def picture(self, path: str | Path) -> None:
        with open(path, "wb") as file:
            file.write(base64.b64decode(self.call("Page.captureScreenshot", format="png")["data"]))

    def colour(self, x: float, y: float) -> tuple[int, int, int]:
        """The colour of a pixel of the page as it is seen."""
        clip = {"x": int(x), "y": int(y), "width": 1, "height": 1, "scale": 1}
        told = self.call("Page.captureScreenshot", format="png", clip=clip)["data"]
        return _only_pixel(base64.b64decode(told))

    def scheme(self, name: str) -> None:
        """The system prefers light or dark."""
        feature = {"name": "prefers-color-scheme", "value": name}
        self.call("Emulation.setEmulatedMedia", features=[feature])

    def mouse(self, kind: str, x: float, y: float, **words: Any) -> None:
        self.call("Input.dispatchMouseEvent", type=kind, x=x, y=y, **words)

    def click(self, x: float, y: float, count: int = 1) -> None:
        self.mouse("mouseMoved", x, y)
        for number in range(1, count + 1):
            self.mouse("mousePressed", x, y, button="left", buttons=1, clickCount=number)
            self.mouse("mouseReleased", x, y, button="left", clickCount=number)

    def wheel(self, x: float, y: float, amount: float) -> None:
        """Turns the wheel; an amount below zero is towards the map."""
        self.mouse("mouseWheel", x, y, deltaX=0, deltaY=amount)

    def fingers(self, kind: str, *places: tuple[float, float]) -> None:
        self.call(
            "Input.dispatchTouchEvent",
            type=kind,
            touchPoints=[{"x": x, "y": y, "id": k} for k, (x, y) in enumerate(places)],
        )

    def key(self, key: str, text: str = "") -> None:
        for kind in ("keyDown", "keyUp"):
            self.call(
                "Input.dispatchKeyEvent", type=kind, key=key, text=text if kind == "keyDown" else ""
            )

    def type_text(self, text: str) -> None:
        self.call("Input.insertText", text=text)

    def end(self) -> None:
        try:
            os.killpg(self.process.pid, signal.SIGKILL)
        except ProcessLookupError:
            pass
        self.process.wait()
        os.close(self.writes)
        os.close(self.reads)
        for _ in range(20):  # the browser's own children may still write
            try:
                self.profile.cleanup()
                return
            except OSError:
                time.sleep(0.1)


def _only_pixel(png: bytes) -> tuple[int, int, int]:
    """The colour of a picture of one pixel: behind the eight bytes of its head a PNG has parts of a
    length, a kind, data and a sum, and the one pixel's bytes are the same under each filter.
    """
    place, data = 8, b""
    while place < len(png):
        length, kind = int.from_bytes(png[place : place + 4], "big"), png[place + 4 : place + 8]
        if kind == b"IDAT":
            data += png[place + 8 : place + 8 + length]
        place += length + 12
    _, red, green, blue, *_ = zlib.decompress(data)
    return red, green, blue
