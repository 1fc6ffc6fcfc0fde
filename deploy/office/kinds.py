"""The kind of each rating group, which the bridges from Diameter read from a file.

The word `diameter` writes the file of tariff books, and `book` says which groups it lacks."""
from __future__ import annotations

import json
import pathlib
import tomllib
from collections.abc import Iterable

from office import books
from office.faults import Refused

KINDS = {member: unit for unit, member in books.MEMBERS.items()}


def read(path: pathlib.Path) -> books.Book:
    """The book of a file."""
    try:
        return books.read(path.read_text(encoding="utf-8"), 0)
    except OSError as fault:
        raise Refused(f"{path}: {fault.strerror}") from fault
    except (ValueError, KeyError, TypeError, tomllib.TOMLDecodeError) as fault:
        raise Refused(f"{path} isn't a tariff book: {fault}") from fault


def kinds_of(told: Iterable[books.Book]) -> dict[int, str]:
    """The kind of each group of these books, which follow each other."""
    kinds: dict[int, str] = {}
    for book in told:
        for number, group in book.groups.items():
            if kinds.setdefault(number, KINDS[group.member]) != KINDS[group.member]:
                raise Refused(f"group {number} is in {kinds[number]} and {KINDS[group.member]}")
    return kinds


def lacking(file: pathlib.Path, book: pathlib.Path) -> list[int]:
    """The groups of the book of a file that the bridges' file doesn't have; none where there is no
    such file."""
    try:
        kept = json.loads(file.read_text(encoding="utf-8"))
    except (OSError, ValueError):
        kept = None
    if not isinstance(kept, dict):
        return []
    return sorted(group for group in read(book).groups if str(group) not in kept)
