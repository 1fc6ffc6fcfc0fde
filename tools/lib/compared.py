"""What was found compared with what ledgers.py reckons."""

import contextlib
import pathlib
import sqlite3
from typing import Any


class Difference(Exception):
    """What the program gave isn't what was reckoned."""


def agree(what: str, found: object, wanted: object) -> None:
    """Ends the run where what was found isn't what was wanted."""
    if found != wanted:
        raise Difference(f"{what}: found {found!r}, wanted {wanted!r}"[:4000])


def check_rows(path: pathlib.Path, office: Any) -> int:
    """Compares all rows of a database with those of an office, and says how many they are."""
    count = 0
    with contextlib.closing(sqlite3.connect(path)) as database:
        agree("the file", database.execute("PRAGMA integrity_check").fetchall(), [("ok",)])
        agree("references", database.execute("PRAGMA foreign_key_check").fetchall(), [])
        for table, rows in office.tables().items():
            found = set(map(repr, database.execute(f"SELECT * FROM {table}")))
            wanted = set(map(repr, rows))
            agree(table, sorted(found - wanted)[:1], sorted(wanted - found)[:1])
            count += len(rows)
    return count
