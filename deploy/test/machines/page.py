"""MACHINES.md as a test reads it: what is carried out stands on the page, letter by letter."""
from __future__ import annotations

import pathlib
import re
import textwrap

from support.world import DEPLOY

HEADINGS = re.compile(r"^## ", re.M)
BLOCK = re.compile(r"^(?:\d+\.| +) \*([^*\n]+)\*:[^\n]*\n +```\n(.*?)^ +```$", re.M | re.S)


def section(name: str, page: pathlib.Path = DEPLOY / "MACHINES.md") -> str:
    """The text below a heading of a page."""
    for part in HEADINGS.split(page.read_text(encoding="utf-8")):
        if part.startswith(f"{name}\n"):
            return part
    raise AssertionError(f"{page} has no heading {name!r}")


def line(text: str, wanted: str) -> str:
    """A line that is carried out; it stands in this text between backticks."""
    assert f"`{wanted}`" in text, (wanted, text)
    return wanted


def blocks(text: str) -> list[tuple[list[str], str]]:
    """The blocks of numbered steps, each with the machines that it is for."""
    return [(names.split(", "), textwrap.dedent(lines)) for names, lines in BLOCK.findall(text)]


def fenced(text: str) -> str:
    """The first block between fences."""
    return text.partition("```\n")[2].partition("```\n")[0]
