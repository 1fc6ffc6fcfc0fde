"""The wrong bodies of crates, as the files of edits/ have them."""
import glob
import operator
import os
import typing

ROOT = os.path.normpath(os.path.join(os.path.dirname(os.path.abspath(__file__)), "../.."))


class WrongBody(typing.NamedTuple):
    """A wrong body: its name, its rules, and its changes, which are the file that each turns, its old
    text and its new one."""

    name: str
    rules: list[str]
    changes: list[tuple[str, str, str]]


def bodies_in(path: str) -> list[WrongBody]:
    """The wrong bodies of a file, in its order. A line `edit: NAME` begins one; a file that begins with
    another line is one, of the file's name."""
    with open(path, encoding="utf-8") as file:
        lines = [line.split(": ", 1) for line in file.read().splitlines() if ": " in line]
    if not lines or lines[0][0] != "edit":
        lines.insert(0, ["edit", os.path.basename(path).removesuffix(".edit")])
    found: list[WrongBody] = []
    target, old = "", ""
    for word, text in lines:
        if word == "edit":
            found.append(WrongBody(text.strip(), [], []))
            target, old = "", ""
        elif word == "rule":
            found[-1].rules.append(text)
        elif word == "file":
            target = text.strip()
        elif word == "old":
            old = text
        elif word == "new":
            found[-1].changes.append((target, old, text))
    return found


def bodies_of(crate: str) -> list[WrongBody]:
    """The wrong bodies of a crate, in the order of their names."""
    paths = sorted(glob.glob(os.path.join(ROOT, "crates", crate, "edits", "*.edit")))
    return sorted(
        (body for path in paths for body in bodies_in(path)), key=operator.attrgetter("name")
    )
