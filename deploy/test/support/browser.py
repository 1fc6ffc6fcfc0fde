"""Headless Chromium with one page, driven over its two pipes, by keys and by a pointer."""
from __future__ import annotations

import base64
import contextlib
import fcntl
import json
import os
import pathlib
import select
import subprocess
from collections.abc import Sequence
from typing import Any

from support.waiting import until

WORDS = (
    *("chromium", "--headless", "--no-sandbox", "--disable-gpu", "--remote-debugging-pipe"),
    *("--no-first-run", "--disable-extensions", "--no-proxy-server", "--hide-scrollbars"),
)
SECONDS = 60
# Keys that aren't letters: their codes, and the text that they bring.
KEYS = {
    **{"Tab": (9, ""), "Enter": (13, "\r"), "Escape": (27, ""), " ": (32, " ")},
    **{"End": (35, ""), "Home": (36, ""), "ArrowLeft": (37, ""), "ArrowUp": (38, "")},
    **{"ArrowRight": (39, ""), "ArrowDown": (40, ""), "Backspace": (8, "")},
}
SHIFT = 8


class Browser:
    """A browser whose profile is in a folder; `enter` are words that run it elsewhere, as in a copy of
    this machine."""

    def __init__(self, place: pathlib.Path, *more: str, enter: Sequence[str] = ()) -> None:
        words, self.said = pipes()
        redirect = f'exec "$@" 3<&{words[0]} 4>&{self.said[1]}'
        asked = [*enter, "bash", "-c", redirect, "bash", *WORDS, *more, f"--user-data-dir={place}"]
        self.process = subprocess.Popen(
            [*asked, "about:blank"],
            pass_fds=(words[0], self.said[1]),
            stdin=subprocess.DEVNULL,
            stdout=subprocess.DEVNULL,
            stderr=subprocess.DEVNULL,
        )
        os.close(words[0])
        os.close(self.said[1])
        self.out, self.kept, self.number, self.session = words[1], b"", 0, ""
        self.events: list[dict[str, Any]] = []
        # Whom the browser says that it is, where a door asks for a name and a password.
        self.person: tuple[str, str] | None = None
        until(self.pages, "a page of the browser")
        attached = self.do("Target.attachToTarget", targetId=self.pages()[0], flatten=True)
        self.session = attached["sessionId"]
        for part in ("Page", "Runtime", "Network", "Log"):
            self.do(f"{part}.enable")

    def pages(self) -> list[str]:
        """The pages that are open."""
        told = self.do("Target.getTargets")["targetInfos"]
        return [one["targetId"] for one in told if one["type"] == "page"]

    def message(self) -> dict[str, Any]:
        """The next message of the browser."""
        while b"\0" not in self.kept:
            is_there = select.select([self.said[0]], [], [], SECONDS)[0]
            got = os.read(self.said[0], 1 << 16) if is_there else b""
            if not got:
                raise OSError("the browser doesn't answer")
            self.kept += got
        first, _, self.kept = self.kept.partition(b"\0")
        return dict(json.loads(first))

    def do(self, method: str, **words: Any) -> dict[str, Any]:
        """What the browser answers to a command; what it reports meanwhile is kept."""
        self.number += 1
        number = self.number
        asked: dict[str, Any] = {"id": number, "method": method, "params": words}
        if self.session:
            asked["sessionId"] = self.session
        os.write(self.out, json.dumps(asked).encode() + b"\0")
        while True:
            answer = self.message()
            if answer.get("id") != number:
                self.events.append(answer)
                self.reply(answer)
                continue
            if "error" in answer:
                raise OSError(f"{method}: {answer['error']}")
            return dict(answer["result"])

    def reply(self, event: dict[str, Any]) -> None:
        """Lets a request go on that waits for us, or says who asks."""
        method, told = event.get("method"), event.get("params", {})
        if method == "Fetch.requestPaused":
            self.tell("Fetch.continueRequest", requestId=told["requestId"])
        if method == "Fetch.authRequired":
            answer: dict[str, str] = {"response": "CancelAuth"}
            if self.person:
                name, password = self.person
                answer = {"response": "ProvideCredentials", "username": name, "password": password}
            self.tell(
                "Fetch.continueWithAuth",
                requestId=told["requestId"],
                authChallengeResponse=answer,
            )

    def tell(self, method: str, **words: Any) -> None:
        """A command whose answer isn't waited for."""
        self.number += 1
        asked = {"id": self.number, "method": method, "params": words, "sessionId": self.session}
        os.write(self.out, json.dumps(asked).encode() + b"\0")

    def sign_in(self, name: str, password: str) -> None:
        """From now on a name and a password are given where they are asked for."""
        self.person = (name, password)
        self.do("Fetch.enable", handleAuthRequests=True)

    def value(self, text: str) -> Any:
        """The value of an expression in the page, once it is there."""
        told = self.do("Runtime.evaluate", expression=text, returnByValue=True, awaitPromise=True)
        if "exceptionDetails" in told:
            raise ValueError(str(told["exceptionDetails"])[:400])
        return told["result"].get("value")

    def open(self, address: str) -> None:
        """Opens an address, and waits until it is there."""
        self.do("Page.navigate", url=address)
        until(self.is_complete, f"the page {address}")

    def is_complete(self) -> bool:
        """Whether the page is there."""
        with contextlib.suppress(ValueError, OSError):
            is_blank = self.value("location.href") == "about:blank"
            return not is_blank and self.value("document.readyState") == "complete"
        return False

    def look(self, width: int, scheme: str = "light", height: int = 900) -> None:
        """Makes the window so wide, in light or in dark."""
        shape = {"width": width, "height": height, "deviceScaleFactor": 1, "mobile": False}
        self.do("Emulation.setDeviceMetricsOverride", **shape)
        features = [{"name": "prefers-color-scheme", "value": scheme}]
        self.do("Emulation.setEmulatedMedia", features=features)

    def press(self, key: str, is_shifted: bool = False) -> None:
        """Presses a key: a letter, or one of `KEYS`."""
        code, text = KEYS.get(key, (ord(key[0].upper()), key))
        held = {"key": key, "code": key, "windowsVirtualKeyCode": code}
        held["modifiers"] = SHIFT if is_shifted else 0
        self.do("Input.dispatchKeyEvent", type="keyDown", text=text, **held)
        self.do("Input.dispatchKeyEvent", type="keyUp", **held)

    def write(self, text: str) -> None:
        """Writes a text where the keys go."""
        self.do("Input.insertText", text=text)

    def click(self, selector: str) -> None:
        """Presses the pointer's button on an element, which has to be what is seen there."""
        place = self.value(POINT.replace("SELECTOR", json.dumps(selector)))
        if not place:
            raise ValueError(f"nothing to click at {selector!r}")
        held = {"x": place[0], "y": place[1], "button": "left", "clickCount": 1}
        self.do("Input.dispatchMouseEvent", type="mousePressed", **held)
        self.do("Input.dispatchMouseEvent", type="mouseReleased", **held)

    def file(self, selector: str, path: pathlib.Path) -> None:
        """Chooses a file in a field of files."""
        root = self.do("DOM.getDocument")["root"]["nodeId"]
        node = self.do("DOM.querySelector", nodeId=root, selector=selector)["nodeId"]
        self.do("DOM.setFileInputFiles", nodeId=node, files=[str(path)])

    def picture(self, path: pathlib.Path, selector: str = "main", most: float = 1e9) -> None:
        """Leaves a picture of a part of the page, the window's width and at most so high."""
        place = f"document.querySelector({json.dumps(selector)}).getBoundingClientRect()"
        top, bottom, width = self.value(
            f"[{place}.top + scrollY, {place}.bottom + scrollY, innerWidth]"
        )
        clip = {"x": 0, "y": top, "width": width, "height": min(bottom - top, most), "scale": 1}
        words = {"format": "png", "captureBeyondViewport": True, "clip": clip}
        path.write_bytes(base64.b64decode(self.do("Page.captureScreenshot", **words)["data"]))

    def reported(self, word: str) -> bool:
        """Whether the browser has reported something with this word."""
        return any(word in json.dumps(event) for event in self.events)

    def end(self) -> None:
        """Ends the browser."""
        with contextlib.suppress(OSError):
            self.do("Browser.close")
        with contextlib.suppress(subprocess.TimeoutExpired):
            self.process.wait(20)
            return
        self.process.kill()
        self.process.wait()


# Where the middle of an element is, once it is in the window, if nothing else is before it.
POINT = """(() => {
    const element = document.querySelector(SELECTOR);
    if (!element) return null;
    element.scrollIntoView({block: 'center'});
    const {left, top, width, height} = element.getBoundingClientRect();
    const point = [left + width / 2, top + height / 2], seen = document.elementFromPoint(...point);
    return seen && (element.contains(seen) || seen.contains(element)) ? point : null;
})()"""


def pipes() -> tuple[list[int], list[int]]:
    """Two pipes whose ends have high numbers."""
    low = [end for _ in range(2) for end in os.pipe()]
    high = [fcntl.fcntl(end, fcntl.F_DUPFD_CLOEXEC, 20) for end in low]
    for end in low:
        os.close(end)
    return high[:2], high[2:]
