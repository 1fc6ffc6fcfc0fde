"""The one reader of databases: the program's tables, read only.

Words that reckon over copies call `opened`. A database that is served is locked by its process:
take a copy of it (`copies`). Each query costs what SQLite makes of it."""
from __future__ import annotations

import contextlib
import dataclasses
import pathlib
import sqlite3
import urllib.parse
from collections.abc import Iterator
from typing import Any

from office.faults import Refused

# The version of the tables (docs/TABLES.md) that this reader knows.
VERSION = 3
Row = dict[str, Any]


@dataclasses.dataclass(frozen=True)
class Database:
    """A database that nobody serves."""

    path: pathlib.Path
    store: sqlite3.Connection
    last_moment: int  # of its last accepted command, in seconds since 1970

    def rows(self, query: str, *values: object) -> Iterator[Row]:
        """The rows of a selection, by the names of their columns."""
        return map(dict, self.store.execute(query, values))

    def one(self, query: str, *values: object) -> Any:
        """The first column of the first row; none where there is no row."""
        row = self.store.execute(query, values).fetchone()
        return None if row is None else row[0]

    def books(self) -> list[tuple[str, int]]:
        """The texts of the tariff books, each with its first moment; the first has 0."""
        later = self.store.execute("SELECT content, starts FROM books ORDER BY number")
        first = str(self.one("SELECT book FROM meta"))
        return [(first, 0), *((text, starts) for text, starts in later)]


def uri(path: pathlib.Path, is_still: bool = False) -> str:
    """The name by which SQLite only reads a file; of one that `is_still`, without a file beside it."""
    return f"file:{urllib.parse.quote(str(path))}?mode=ro" + ("&immutable=1" if is_still else "")


@contextlib.contextmanager
def opened(path: pathlib.Path, *, is_still: bool = False) -> Iterator[Database]:
    """A database, read only. A fault of SQLite within is `Refused` with the file's name.

    One that `is_still` has no log and is written by nobody, such as a copy: it is read without a file
    beside it, where none may be made, and by one thread or another."""
    if not path.is_file():
        raise Refused(f"{path} isn't there")
    store = None
    try:
        place = uri(path, is_still)
        store = sqlite3.connect(place, uri=True, timeout=0, check_same_thread=not is_still)
        store.row_factory = sqlite3.Row
        version, last = store.execute("SELECT version, last_moment FROM meta").fetchone()
        if version != VERSION:
            raise Refused(f"{path}: tables of version {version}, not {VERSION}: `ocs migrate`")
        yield Database(path, store, last)
    except (sqlite3.Error, TypeError) as fault:
        raise Refused(f"{path}: {fault}") from fault
    finally:
        if store is not None:
            store.close()
