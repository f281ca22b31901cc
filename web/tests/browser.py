"""Drives headless Chromium through a pipe (DevTools' protocol), with nothing else installed."""
from __future__ import annotations

import base64
import json
import os
import select
import shutil
import subprocess
import sys
import tempfile
import time
from pathlib import Path

SECONDS = 120  # that anything may take, on a machine that is busy, too
PROGRAMS = ("chromium", "chromium-browser", "google-chrome", "chrome")
KEYS = {
    "Enter": 13, "Escape": 27, "ArrowLeft": 37, "ArrowRight": 39, "ArrowUp": 38, "ArrowDown": 40,
    "Home": 36, "End": 35, "Tab": 9, " ": 32, "F8": 119, "F9": 120, "Delete": 46,
}
MIDDLE = """(() => {
    const element = document.querySelector(SELECTOR);
    element.scrollIntoView({block: 'nearest'});
    const box = element.getBoundingClientRect();
    return [box.x + box.width / 2, box.y + box.height / 2];
})()"""


def find_browser() -> str | None:
    """The path of Chromium, or None."""
    found = [shutil.which(name) for name in PROGRAMS]
    return next((path for path in found if path), None)


class NotBegun(Exception):
    """The page did not begin, so nothing can be tried on it."""


class Browser:
    """A browser with one page."""

    def __init__(self, width: int = 1400, height: int = 900, dark: bool = False) -> None:
        self._folder = tempfile.TemporaryDirectory(prefix="l6-browser-", ignore_cleanup_errors=True)
        to_read, self._to = os.pipe()
        self._from, to_write = os.pipe()
        words = [find_browser() or "", "--headless=new", "--no-sandbox", "--disable-gpu", "--hide-scrollbars",
                 "--remote-debugging-pipe", f"--user-data-dir={self._folder.name}", "--no-first-run",
                 "--disable-background-networking", "--disable-component-update", "about:blank"]
        self._process = subprocess.Popen(
            ["/bin/sh", "-c", f'exec "$@" 3<&{to_read} 4>&{to_write}', "sh", *words],
            pass_fds=(to_read, to_write),
            stdin=subprocess.DEVNULL, stdout=subprocess.DEVNULL, stderr=subprocess.DEVNULL,
        )
        os.close(to_read)
        os.close(to_write)
        self._buffer = b""
        self._number = 0
        self._session: str | None = None
        self.events: list[dict] = []
        target = self._call("Target.createTarget", url="about:blank")["targetId"]
        self._session = self._call("Target.attachToTarget", targetId=target, flatten=True)["sessionId"]
        for domain in ("Page", "Runtime", "Log", "Network"):
            self._call(f"{domain}.enable")
        self._call("Performance.enable", timeDomain="threadTicks")
        self.resize(width, height, dark)

    def __enter__(self) -> Browser:
        return self

    def __exit__(self, *_: object) -> None:
        self._process.kill()
        self._process.wait()
        os.close(self._to)
        os.close(self._from)
        self._folder.cleanup()

    def resize(self, width: int, height: int, dark: bool = False, phone: bool = False, dots: int = 1) -> None:
        """Sets the window's size in pixels, how many dots each has across, and whether the reader likes it dark."""
        size = {"width": width, "height": height, "deviceScaleFactor": dots, "mobile": phone}
        self._call("Emulation.setDeviceMetricsOverride", **size)
        self._features = {"prefers-color-scheme": "dark" if dark else "light", "prefers-reduced-motion": "reduce"}
        self._media()

    def _media(self, media: str = "") -> None:
        """Has the browser know what the reader likes, and whether the page is printed. (It forgets what is not said.)"""
        features = [{"name": name, "value": value} for name, value in self._features.items()]
        self._call("Emulation.setEmulatedMedia", media=media, features=features)

    def open(self, page: Path | str, fragment: str = "") -> None:
        """Opens a page, and waits until it is ready."""
        address = page if isinstance(page, str) else page.resolve().as_uri()
        self.value("window.l6 && (l6.library.isChanged = false)")  # (or the browser would ask)
        self._call("Page.navigate", url="about:blank")
        self.wait("location.href === 'about:blank'")  # (else this way could end the next one)
        self._call("Page.navigate", url=address + fragment)
        try:
            self.wait("document.body?.dataset.ready !== undefined")
        except AssertionError as error:
            raise NotBegun(f"the page is not ready within {SECONDS} seconds") from error
        if self.value("document.body.dataset.ready") != "yes":
            raise NotBegun(self.value("document.getElementById('run-note').textContent"))

    def reload(self) -> None:
        """Loads the page again, as its reader does, and waits until it is ready."""
        self.value("l6.library.isChanged = false")  # (or the browser would ask)
        begun = len(self.events)
        self._call("Page.reload")
        while not any(it["method"] == "Page.frameNavigated" for it in self.events[begun:]):
            self._saw(self._read())  # (nothing can be asked of a page on its way out)
        self.wait("document.body?.dataset.ready !== undefined")

    def value(self, script: str):
        """What a script answers; a promise is waited for."""
        answer = self._call("Runtime.evaluate", expression=script, awaitPromise=True, returnByValue=True)
        if "exceptionDetails" in answer:
            raise AssertionError(f"{script[:200]}: {json.dumps(answer['exceptionDetails'])[:600]}")
        return answer["result"].get("value")

    def spoken(self, selector: str) -> dict[str, object]:
        """What a screen reader gets of an element: its role, its name, what describes it, and how it is."""
        found = self._call("Runtime.evaluate", expression=f"document.querySelector({json.dumps(selector)})")["result"]
        if "objectId" not in found:
            return {"role": "nothing there"}
        node = self._call("Accessibility.getPartialAXTree", objectId=found["objectId"], fetchRelatives=False)["nodes"][0]
        parts = {part: node.get(part, {}).get("value", "") for part in ("role", "name", "description")}
        return parts | {it["name"]: it["value"].get("value") for it in node.get("properties", [])}

    def wait(self, condition: str, seconds: float = SECONDS) -> None:
        """Waits until a condition holds."""
        end = time.monotonic() + seconds
        while not self.value(condition):
            if time.monotonic() > end:
                raise AssertionError(f"not within {seconds} seconds: {condition}")
            time.sleep(0.02)

    def processor_time(self) -> tuple[float, float]:
        """The milliseconds of processor time that the page has taken: its main thread, and all its threads.

        Unlike a clock, this says the same whatever else the machine does.
        """
        found = {it["name"]: it["value"] for it in self._call("Performance.getMetrics")["metrics"]}
        return found["ThreadTime"] * 1000, found["ProcessTime"] * 1000

    def key(self, key: str, code: str = "", modifiers: int = 0, text: str = "") -> None:
        """Presses a key. Modifiers: 1 Alt, 2 Control, 4 Meta, 8 Shift."""
        number = KEYS.get(key, ord(key[0].upper()))
        how = {"key": key, "code": code or key, "windowsVirtualKeyCode": number, "modifiers": modifiers}
        self._call("Input.dispatchKeyEvent", type="keyDown", **how, **({"text": text} if text else {}))
        self._call("Input.dispatchKeyEvent", type="keyUp", **how)

    def type(self, text: str) -> None:
        """Types a text into what has the focus."""
        self._call("Input.insertText", text=text)

    def click(self, selector: str) -> None:
        """Clicks in the middle of an element."""
        x, y = self.value(MIDDLE.replace("SELECTOR", json.dumps(selector)))
        self.click_at(x, y)

    def click_at(self, x: float, y: float, modifiers: int = 0, times: int = 1) -> None:
        """Clicks at a point of the window."""
        how = {"x": x, "y": y, "button": "left", "modifiers": modifiers}
        for count in range(1, times + 1):
            for kind in ("mousePressed", "mouseReleased"):
                self._call("Input.dispatchMouseEvent", type=kind, clickCount=count, **how)

    def drag(self, selector: str, dx: float) -> None:
        """Drags an element to the right, or to the left."""
        x, y = self.value(MIDDLE.replace("SELECTOR", json.dumps(selector)))
        moves = (("mousePressed", x, 1), ("mouseMoved", x + dx, 1), ("mouseReleased", x + dx, 0))
        for kind, at, buttons in moves:
            how = {"x": at, "y": y, "button": "left", "buttons": buttons, "clickCount": 1}
            self._call("Input.dispatchMouseEvent", type=kind, **how)

    def drag_from(self, x: float, y: float, dx: float, dy: float) -> None:
        """Drags from a point of the window."""
        for kind, part, buttons in (("mousePressed", 0, 1), ("mouseMoved", 0.5, 1), ("mouseMoved", 1, 1),
                                    ("mouseReleased", 1, 0)):
            how = {"x": x + dx * part, "y": y + dy * part, "button": "left", "buttons": buttons, "clickCount": 1}
            self._call("Input.dispatchMouseEvent", type=kind, **how)

    def wheel(self, x: float, y: float, by: float) -> None:
        """Turns the wheel at a point of the window: below 0 is up."""
        self._call("Input.dispatchMouseEvent", type="mouseWheel", x=x, y=y, deltaX=0, deltaY=by)
        self.value("new Promise(it => setTimeout(it, 60))")

    def pinch(self, x: float, y: float, before: float, after: float) -> None:
        """Two fingers go from one distance to another around a point of the window."""
        def points(apart: float) -> list[dict[str, float]]:
            return [{"x": x - apart / 2, "y": y, "id": 0}, {"x": x + apart / 2, "y": y, "id": 1}]

        self._call("Emulation.setTouchEmulationEnabled", enabled=True)
        self._call("Input.dispatchTouchEvent", type="touchStart", touchPoints=points(before))
        for part in (0.3, 0.6, 1):
            apart = before + (after - before) * part
            self._call("Input.dispatchTouchEvent", type="touchMove", touchPoints=points(apart))
        self._call("Input.dispatchTouchEvent", type="touchEnd", touchPoints=[])
        self._call("Emulation.setTouchEmulationEnabled", enabled=False)

    def moving(self, is_on: bool) -> None:
        """Whether the reader likes motion, from now on."""
        self._features["prefers-reduced-motion"] = "no-preference" if is_on else "reduce"
        self._media()

    def printing(self, is_on: bool) -> None:
        """Whether the page is shown as it is printed."""
        self._media("print" if is_on else "")
        self.value("new Promise(it => setTimeout(it, 50))")

    def picture(self, path: Path) -> None:
        """Writes a picture of the window."""
        data = self._call("Page.captureScreenshot", format="png")["data"]
        path.write_bytes(base64.b64decode(data))

    def troubles(self) -> list[str]:
        """What the page wrote to the console as an error, or was refused, since the last call."""
        self.value("1")
        found = []
        for event in self.events:
            if event["method"] == "Log.entryAdded" and event["params"]["entry"]["level"] == "error":
                found.append(event["params"]["entry"]["text"])
            if event["method"] == "Runtime.exceptionThrown":
                found.append(json.dumps(event["params"])[:500])
        self.events.clear()
        return found

    def requests(self) -> list[str]:
        """The addresses that the page has asked for since the last call of `troubles`."""
        asked = [it["params"] for it in self.events if it["method"] == "Network.requestWillBeSent"]
        return [it["request"]["url"] for it in asked]

    def _call(self, method: str, **parameters: object) -> dict:
        number = self._send(method, **parameters)
        while True:
            answer = self._read()
            if answer.get("id") == number:
                if "error" in answer:
                    raise AssertionError(f"{method}: {answer['error']}")
                return answer["result"]
            self._saw(answer)

    def _saw(self, message: dict) -> None:
        """Takes note of a message that answers no call that waits."""
        if message.get("method") == "Page.javascriptDialogOpening":
            self._send("Page.handleJavaScriptDialog", accept=True)
        elif "method" in message:
            self.events.append(message)

    def _send(self, method: str, **parameters: object) -> int:
        return self._send_to(self._session, method, **parameters)

    def _send_to(self, session: str | None, method: str, **parameters: object) -> int:
        self._number += 1
        message = {"id": self._number, "method": method, "params": parameters}
        if session:
            message["sessionId"] = session
        os.write(self._to, json.dumps(message).encode() + b"\0")
        return self._number

    def _read(self) -> dict:
        while b"\0" not in self._buffer:
            if not select.select([self._from], [], [], SECONDS)[0]:
                raise AssertionError(f"the browser does not answer within {SECONDS} seconds")
            part = os.read(self._from, 1 << 20)
            if not part:
                raise AssertionError("the browser has ended")
            self._buffer += part
        message, _, self._buffer = self._buffer.partition(b"\0")
        return json.loads(message)


if __name__ == "__main__":
    sys.exit("browser.py is no program")
