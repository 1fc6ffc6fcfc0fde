"""The references under which vouchers were redeemed, kept on the disk.

The program keeps a reference with the account that it is used for. A code of another shard is credited
under a reference of the code's own, so that of the caller is kept here: used again for another code it
is refused, and so is a code that the account has redeemed under another. Without the file, or on
another machine, a repeat still credits once (`redemption`); that it is one is no longer told."""
from __future__ import annotations

import contextlib
import sqlite3
import sys
from collections.abc import Iterator

from office.faults import Refused

TABLE = """
    CREATE TABLE IF NOT EXISTS redeemed (
        account TEXT NOT NULL, reference TEXT NOT NULL, code TEXT NOT NULL, done INTEGER NOT NULL,
        PRIMARY KEY (account, reference)) STRICT"""
CODE = "SELECT code FROM redeemed WHERE account = ? AND reference = ?"
OTHER = """
    SELECT 1 FROM redeemed WHERE account = ? AND code = ? AND reference <> ? AND done = 1"""
BEGIN = "INSERT OR IGNORE INTO redeemed VALUES (?, ?, ?, 0)"
DONE = "UPDATE redeemed SET done = 1 WHERE account = ? AND reference = ?"
UNDONE = "DELETE FROM redeemed WHERE account = ? AND reference = ? AND done = 0"
# Of the program: the voucher is spent; the reference was used for something else.
SPENT, USED = "O4", "O5"
SECONDS = 30


class References:
    """The file, for one request."""

    def __init__(self, path: str) -> None:
        self.path = path
        try:
            self.store = sqlite3.connect(path, timeout=SECONDS, isolation_level="IMMEDIATE")
            with self.store:
                self.store.execute(TABLE)
        except sqlite3.Error as fault:
            raise Refused(f"{path}: {fault}") from fault

    def begin(self, account: str, code: str, reference: str) -> str:
        """Keeps that it begins; a refusal where it may not, else an empty text."""
        with self.kept():
            row = self.store.execute(CODE, (account, reference)).fetchone()
            if row and row[0] != code:
                return USED
            if self.store.execute(OTHER, (account, code, reference)).fetchone():
                return SPENT
            self.store.execute(BEGIN, (account, reference, code))
        return ""

    def end(self, account: str, reference: str, is_done: bool) -> None:
        """Keeps that it is done; a reference that was refused may be used again. It is done whether
        or not that can be kept."""
        try:
            with self.kept():
                self.store.execute(DONE if is_done else UNDONE, (account, reference))
        except Refused as fault:
            print(f"office: {fault}", file=sys.stderr, flush=True)

    @contextlib.contextmanager
    def kept(self) -> Iterator[None]:
        """What is done within is on the disk afterwards, or a fault names the file."""
        try:
            with self.store:
                yield
        except sqlite3.Error as fault:
            raise Refused(f"{self.path}: {fault}") from fault

    def __enter__(self) -> References:
        return self

    def __exit__(self, *_: object) -> None:
        self.store.close()
