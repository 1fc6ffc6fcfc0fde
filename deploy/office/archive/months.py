"""Statements and exports of an account whose charges are in archives too.

A month's charges are those of each database in which the account lived, in their order; the buckets are
those of the one in which it lived when the month ended. What a carry or a move sent to bring counters to
their places is no use of the account's, and isn't shown. It costs a look at each archive."""
from __future__ import annotations

import datetime
import functools
from collections.abc import Iterable

from office import accounts, books, statements
from office.archive.past import Part
from office.civil import Zone
from office.tables import Database, Row

CHARGES = """
    SELECT c.*, coalesce(v.blocks, 0) AS covered FROM charges c
    LEFT JOIN covered v USING (account, number)
    WHERE c.account = ? AND c.moment BETWEEN ? AND ? AND NOT EXISTS (
        SELECT 1 FROM answers a WHERE a.account = c.account AND a.kind = 2 AND a.name = c.session
        AND a.name LIKE 'carry-counter-%')
    ORDER BY c.number"""


class Months:
    """The months of an account, by the archives that have its past, the oldest first."""

    def closed(self, own: Iterable[Part], month: str) -> Part | None:
        """The archive in which an account lived when a month ended."""
        for part in own:
            if part.at() >= end_of(zone_of(part.database), month):
                return part
        return None

    def is_past(self, own: list[Part], account: str, month: str) -> bool:
        """Whether archives have charges of an account in a month, or all of the month."""
        return bool(own) and bool(
            self.closed(own, month) or any(charges(one.database, account, month) for one in own)
        )

    def of(self, own: list[Part], account: str, month: str, now: Database | None) -> list[Row]:
        """The charges of a month, in the archives and in the database in which an account lives."""
        closed, found = self.closed(own, month), list[Row]()
        databases = [part.database for part in own]
        if closed is None and now is not None:
            databases.append(now)
        for database in databases:
            found += charges(database, account, month)
        return found

    def export(
        self, own: list[Part], account: str, month: str, now: Database | None, _: int
    ) -> str:
        """The charges of a month as CSV."""
        return statements.export(self.of(own, account, month, now))

    def statement(
        self, own: list[Part], account: str, month: str, now: Database | None, moment: int
    ) -> str:
        """The statement of a month, as of a moment where it isn't closed in an archive."""
        rows, closed = self.of(own, account, month, now), self.closed(own, month)
        database = closed.database if closed else now
        assert database is not None
        as_of = closed.at() if closed else moment
        those = list(accounts.buckets(database, as_of, account))
        return statements.statement(account, month, as_of, rows, those)


def charges(database: Database, account: str, month: str) -> list[Row]:
    """The charges of an account's own use in a month that a database has."""
    zone = zone_of(database)
    rows = database.rows(CHARGES, account, *statements.around(zone, month))
    return [row for row in rows if zone.month(row["moment"]) == month]


def zone_of(database: Database) -> Zone:
    """The zone of a database's books."""
    return zone_of_book(database.books()[0][0])


@functools.lru_cache(maxsize=64)
def zone_of_book(text: str) -> Zone:
    """The zone of a book, which takes a reading of it."""
    return books.read(text, 0).zone


def end_of(zone: Zone, month: str) -> int:
    """The first moment behind a civil month."""
    last = datetime.date(int(month[:4]), int(month[4:]), 28) + datetime.timedelta(4)
    return zone.typed(f"{last:%Y-%m}-01T00:00")
