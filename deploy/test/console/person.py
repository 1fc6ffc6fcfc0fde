"""Somebody at the office's page in Chromium: at a door, by keys or by a pointer."""
from __future__ import annotations

import contextlib
import json
import pathlib
import re
from collections.abc import Sequence
from typing import Any

from support.browser import Browser
from support.waiting import until

from console.office import SECRET

# Whether a browser asks a door with TLS for no certificate of its own.
WORDS = ("--ignore-certificate-errors", "--lang=en-US")
FOCUS = "(() => { const one = document.activeElement; return one === document.querySelector(WANTED); })()"
STEPS = 120
Shown = dict[str, Any]


class Person(Browser):
    """A browser with the page; `way` is how it is used: "keys" or "pointer"."""

    def __init__(self, place: pathlib.Path, enter: Sequence[str] = ()) -> None:
        super().__init__(place, *WORDS, enter=enter)
        self.way, self.top = "pointer", ""
        self.look(1200)

    def go_to(self, port: int, name: str = "", *, has_tls: bool = False) -> None:
        """Goes to the page at a door; with a name by its password."""
        if name:
            self.sign_in(name, SECRET)
        host = "https://localhost" if name or has_tls else "http://127.0.0.1"
        self.top = f"{host}:{port}/office"

    def show(self, what: str = "") -> None:
        """The page, opened anew at what stands behind #, once it has shown it."""
        self.do("Page.navigate", url="about:blank")
        self.open(f"{self.top}#{what}" if what else self.top)
        self.is_counted("shown", 0)

    def counted(self, what: str) -> int:
        """How often the page has finished such a thing."""
        return int(self.value(f"Number(document.body?.dataset.{what} || 0)"))

    def is_counted(self, what: str, before: int) -> None:
        """Waits until the page has finished such a thing once more."""
        until(lambda: self.has_counted(what, before), f"{what} after {before}")

    def has_counted(self, what: str, before: int) -> bool:
        """Whether the page has finished more such things; one that is being left says nothing."""
        with contextlib.suppress(OSError):
            return self.counted(what) > before
        return False

    def text(self, selector: str) -> str:
        """The text of an element."""
        said = self.value(f"document.querySelector({json.dumps(selector)}).textContent")
        return re.sub(r"\s+", " ", said).strip()

    def texts(self, selector: str) -> list[str]:
        """The texts of all elements of a selector that can be seen."""
        found = f"[...document.querySelectorAll({json.dumps(selector)})]"
        told = self.value(f"{found}.filter(one => one.offsetParent).map(one => one.textContent)")
        return [re.sub(r"\s+", " ", one).strip() for one in told]

    def is_seen(self, selector: str) -> bool:
        """Whether an element is there to be seen."""
        return bool(self.value(f"!!document.querySelector({json.dumps(selector)})?.offsetParent"))

    def to(self, selector: str) -> None:
        """Goes to an element: by the key Tab, or by a click."""
        if self.way == "pointer":
            return self.click(selector)
        is_there = FOCUS.replace("WANTED", json.dumps(selector))
        for _ in range(STEPS):
            if self.value(is_there):
                return None
            self.press("Tab")
        raise ValueError(f"the key Tab doesn't come to {selector!r}")

    def fill(self, form: str, **fields: str) -> None:
        """Writes into fields of a form; a day is written as its field takes it."""
        for name, text in fields.items():
            selector = f"#{form} [name={name}]"
            kind = self.value(f"document.querySelector({json.dumps(selector)}).type")
            if kind == "select-one":
                self.choose(selector, text)
                continue
            self.to(selector)
            if kind in ("date", "datetime-local"):
                self.write_day(text)
                continue
            self.value("document.activeElement.select()")
            if text:
                self.write(text)
            else:
                self.press("Backspace")

    def write_day(self, text: str) -> None:
        """Writes a day, or a moment at whole hours before noon, as its field takes it: from its first
        part on."""
        day, _, clock = text.partition("T")
        year, month, number = day.split("-")
        for key in (*["ArrowLeft"] * 6, *month, *number, *year):
            self.press(key)
        if clock:
            hour = f"{int(clock[:2]) or 12:02}"
            for key in ("ArrowRight", *hour, *clock[3:5], "A"):
                self.press(key)

    def options(self, selector: str) -> list[str]:
        """What a list offers."""
        found = f"[...document.querySelector({json.dumps(selector)}).options]"
        return list(self.value(f"{found}.map(one => one.textContent)"))

    def choose(self, selector: str, text: str) -> None:
        """Chooses in a list: opened by a click or by the key of spaces, and gone through by arrows."""
        texts = self.options(selector)
        if text not in texts:
            raise ValueError(f"there is no {text!r} in {selector!r}")
        self.to(selector)
        if self.way == "keys":
            self.press(" ")
        for key in ("Home", *["ArrowDown"] * texts.index(text), "Enter"):
            self.press(key)

    def attach(self, selector: str, path: pathlib.Path) -> None:
        """Chooses a file in a field of files: its window is opened by a click or by a key."""
        self.do("Page.setInterceptFileChooserDialog", enabled=True)
        before = self.choosers()
        self.push(selector)
        until(lambda: len(self.choosers()) > len(before), "the window of files")
        node = self.choosers()[-1]["params"]["backendNodeId"]
        self.do("DOM.setFileInputFiles", backendNodeId=node, files=[str(path)])

    def choosers(self) -> list[dict[str, Any]]:
        """The windows of files that were opened."""
        self.do("Target.getTargets")
        return [one for one in self.events if one.get("method") == "Page.fileChooserOpened"]

    def tab(self, name: str) -> None:
        """Opens a tab: by a click, or by arrows from the one that is open."""
        if self.way == "pointer":
            return self.click(f"#tab-{name}")
        self.to('[role="tab"][aria-selected="true"]')
        for _ in range(6):
            if self.value("document.activeElement.id") == f"tab-{name}":
                return None
            self.press("ArrowRight")
        raise ValueError(f"there is no tab {name!r}")

    def push(self, selector: str) -> None:
        """Presses a button."""
        self.to(selector)
        if self.way == "keys":
            self.press("Enter")

    def send(self, form: str) -> str:
        """Sends a form, and reads what the page says of it."""
        before = self.counted("done")
        self.push(f"#{form} button.main")
        self.is_counted("done", before)
        return self.outcome()

    def again(self) -> str:
        """Sends the same again, and reads what the page says of it."""
        before = self.counted("done")
        self.push("#again")
        self.is_counted("done", before)
        return self.outcome()

    def outcome(self) -> str:
        """What the page says of the last command."""
        return self.text("#done") + self.text("#refused")

    def told(self) -> str:
        """What the page says at its top."""
        return self.text("#told") + self.text("#fault")

    def find(self, account: str) -> None:
        """Asks for an account by the form."""
        before = self.counted("shown")
        self.to("#account")
        self.value("document.activeElement.select()")
        self.write(account)
        if self.way == "keys":
            self.press("Enter")
        else:
            self.click("#ask button.main")
        self.is_counted("shown", before)

    def faults(self) -> list[str]:
        """What the browser reported against the page: faults of its script, and of its policy."""
        told = [json.dumps(one) for one in self.events]
        return [one for one in told if "Content Security Policy" in one or "exceptionThrown" in one]
