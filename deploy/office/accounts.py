"""Accounts of a database that nobody serves, as they stand at a moment (docs/RULES.md, "Buckets",
"Sessions").

`statements`, `carry` and `audit` read them. What a session that is over still holds is left to its
bucket, and what an ended bucket has left has expired: no command has told the tables yet. It costs a
walk over the live rows."""
from __future__ import annotations

import collections
import dataclasses
from collections.abc import Iterator

from office import books
from office.books import Book
from office.tables import Database

# "No end", in the column `ends`.
NO_END = 4_102_444_800
BUCKETS = """
    SELECT b.*, b.scope IS NOT NULL AND a.number IS NOT NULL AS is_blocks
    FROM buckets b LEFT JOIN allowance_buckets a USING (account, number)
    {where} ORDER BY b.account, b.number"""
HELD = """
    SELECT h.account, h.bucket, h.amount, s.session, s.touched
    FROM holds h JOIN session_groups g USING (account, session, rating_group)
    JOIN sessions s USING (account, session)
    WHERE g.reserved = 1 AND s.state = 1 {more}"""
OPEN = "SELECT account, session, touched FROM sessions WHERE state = 1 ORDER BY account, session"


@dataclasses.dataclass(frozen=True)
class Bucket:
    """A bucket as it stands at a moment; amounts are micro-units, or blocks of its group."""

    account: str
    number: int
    starts: int
    ends: int
    scope: int | None
    is_blocks: bool
    credited: int
    available: int
    reserved: int
    charged: int
    expired: int

    def amounts(self) -> tuple[int, int, int, int, int]:
        """What was credited, and what became of it."""
        return self.credited, self.available, self.reserved, self.charged, self.expired


def buckets(database: Database, moment: int, account: str = "") -> Iterator[Bucket]:
    """All buckets by account and number, as they stand at a moment; of one account, where it is named."""
    released = dict(over(database, moment, account))
    where, values = ("WHERE b.account = ?", (account,)) if account else ("", ())
    for row in database.rows(BUCKETS.format(where=where), *values):
        free = released.get((row["account"], row["number"]), 0)
        available, reserved = row["available"] + free, row["reserved"] - free
        expired = row["expired"]
        if row["ends"] <= moment:
            available, expired = 0, expired + available
        row |= {"available": available, "reserved": reserved, "expired": expired}
        row["is_blocks"] = bool(row["is_blocks"])
        yield Bucket(**row)


def over(
    database: Database, moment: int, account: str = ""
) -> Iterator[tuple[tuple[str, int], int]]:
    """What sessions that are over at a moment still hold, by account and bucket."""
    held = collections.Counter[tuple[str, int]]()
    shelf = books.shelf(database)
    more, values = ("AND h.account = ?", (account,)) if account else ("", ())
    for row in database.rows(HELD.format(more=more), *values):
        if moment >= end_of(shelf, row["touched"]):
            held[row["account"], row["bucket"]] += row["amount"]
    yield from held.items()


def live(database: Database, moment: int) -> Iterator[tuple[str, str, int]]:
    """The sessions that are live at a moment: account, session, the moment at which each ends."""
    shelf = books.shelf(database)
    for row in database.rows(OPEN):
        end = end_of(shelf, row["touched"])
        if moment < end:
            yield row["account"], row["session"], end


def end_of(shelf: list[Book], touched: int) -> int:
    """When a session is over that was last touched at a moment."""
    return touched + 2 * books.at(shelf, touched).validity
