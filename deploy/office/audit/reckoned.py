"""Each account of a database reckoned anew, beside its rows.

The kept contents are carried out again in their order over an account that knows the rules alone
(`ledger`); each kept answer, charge, bucket, counter, session and hold has to be what comes out. Where
the rows leave a moment open, and it makes a difference, both ways are gone (`Ways`); an account whose
ways become too many is told as not reckoned to its end. It costs some 100 microseconds an answer."""
from __future__ import annotations

import collections
import copy
import itertools
import json
from collections.abc import Iterator
from typing import Any

from office import books
from office.audit.findings import Finding
from office.audit.ledger import (
    DONE,
    EVENT,
    NO_END,
    SERVICES,
    UNRATED,
    USED,
    Bucket,
    Charge,
    Differs,
    Ledger,
)
from office.audit.moments import Moments
from office.books import Book
from office.tables import Database, Row

ANSWERS = "SELECT rowid AS id, * FROM answers ORDER BY account, rowid"
CHARGES = """
    SELECT c.*, coalesce(v.blocks, 0) AS covered FROM charges c
    LEFT JOIN covered v USING (account, number) ORDER BY c.account, c.number"""
BUCKETS = """
    SELECT b.*, b.scope IS NOT NULL AND l.number IS NOT NULL AS is_blocks FROM buckets b
    LEFT JOIN allowance_buckets l USING (account, number) ORDER BY b.account, b.number"""
# Selections of an account's other rows, each by account.
OTHERS = {
    "accounts": "SELECT * FROM accounts ORDER BY account",
    "buckets": BUCKETS,
    "charges": CHARGES,
    "counters": "SELECT * FROM counters WHERE blocks > 0 ORDER BY account",
    "sessions": "SELECT * FROM sessions ORDER BY account",
    "session_groups": """
        SELECT g.*, k.book FROM session_groups g
        LEFT JOIN grant_books k USING (account, session, rating_group) ORDER BY g.account""",
    "holds": "SELECT * FROM holds WHERE amount > 0 ORDER BY account",
}
# Ways of one account that are gone at once, and moments that are tried for one command.
MOST_WAYS, MOST_MOMENTS = 64, 500
DAY = 86_400
# Seconds in which changes of a period are looked for, where a moment may be one of years.
SPAN = 30 * DAY


def findings(shard: str, database: Database) -> Iterator[Finding]:
    """What isn't as it is reckoned; of each account the first thing of each table."""
    moments = Moments(shard, database)
    yield from moments.findings
    shelf, rows = books.shelf(database), Rows(database)
    terms = {row["code"]: row for row in database.rows("SELECT * FROM vouchers")}
    kept = by_account(database.rows(ANSWERS))
    pending = next(kept, None)
    for account in accounts(database):
        answers: list[Row] = []
        if pending is not None and pending[0] == account:
            answers, pending = pending[1], next(kept, None)
        ways = Ways(shelf, terms, moments, rows.of(account))
        for table, key, what in ways.differences(answers):
            yield Finding(shard, table, f"{account} {key}".strip(), what)


def accounts(database: Database) -> Iterator[str]:
    """The accounts in their order."""
    for row in database.rows("SELECT account FROM accounts ORDER BY account"):
        yield str(row["account"])


def by_account(rows: Iterator[Row]) -> Iterator[tuple[str, list[Row]]]:
    """Rows that come by account, an account's together."""
    for account, those in itertools.groupby(rows, lambda row: str(row["account"])):
        yield account, list(those)


class Rows:
    """An account's rows of all tables, walked in the order of the accounts."""

    def __init__(self, database: Database) -> None:
        self.walks = {name: by_account(database.rows(query)) for name, query in OTHERS.items()}
        self.next = {name: next(walk, None) for name, walk in self.walks.items()}

    def of(self, account: str) -> dict[str, list[Row]]:
        """The rows of an account by table. Those of no account are passed over."""
        return {name: list(self.of_table(name, account)) for name in OTHERS}

    def of_table(self, name: str, account: str) -> list[Row]:
        """The rows of an account in a table."""
        pair = self.next[name]
        while pair is not None and pair[0] < account:
            pair = next(self.walks[name], None)
        self.next[name] = pair
        if pair is None or pair[0] != account:
            return []
        self.next[name] = next(self.walks[name], None)
        return pair[1]


class Ways:
    """The ways in which an account may have come to its rows."""

    def __init__(
        self,
        shelf: list[Book],
        terms: dict[str, Row],
        moments: Moments,
        rows: dict[str, list[Row]],
    ) -> None:
        self.shelf, self.terms, self.windows, self.rows = shelf, terms, moments.windows, rows
        self.charges = [charge_of(row) for row in rows["charges"]]
        last = {row["session"]: row["last_number"] for row in rows["sessions"]}
        self.ways = [Ledger(shelf, last)]
        self.is_whole = True

    def differences(self, answers: list[Row]) -> Iterator[tuple[str, str, str]]:
        """What differs: the table, the key in the account, and how."""
        for row in answers:
            try:
                self.step(row)
            except Differs as differs:
                yield "answers", f"{row['name']} {row['number']}", str(differs)
                return
        if not self.is_whole:
            yield "accounts", "", "not reckoned to its end: too many moments are open"
            return
        as_of = self.rows["accounts"][0]["as_of"]
        told = [list(self.at_end(way, as_of)) for way in self.ways]
        yield from min(told, key=len)

    def step(self, row: Row) -> None:
        """One accepted command, on each way at each moment that makes a difference."""
        content, answer = json.loads(row["content"]), json.loads(row["answer"])
        found, first = dict[tuple[object, ...], Ledger](), None
        for way in self.ways:
            tried = list(self.moments(way, row, content, answer))
            for moment in tried:
                other = copy_of(way) if len(tried) > 1 else way
                try:
                    self.take(other, row, content, answer, moment)
                    found.setdefault(other.signature(), other)
                except (Differs, KeyError, IndexError, TypeError) as differs:
                    first = first or differs
        if not found:
            raise Differs(str(first) if isinstance(first, Differs) else f"not read: {first!r}")
        self.is_whole = self.is_whole and len(found) <= MOST_WAYS
        self.ways = list(found.values())[:MOST_WAYS]

    def take(self, way: Ledger, row: Row, content: Any, answer: Any, moment: int) -> None:
        """One command on one way; its charges have to be those of the tables."""
        if row["kind"] == 2:
            way.advance(max(moment, way.now))
            self.credit(way, content, answer, moment)
            return
        begun = len(way.charges)
        way.ask(content, answer, moment)
        for at in range(begun, len(way.charges)):
            kept = self.charges[at] if at < len(self.charges) else None
            if kept != way.charges[at]:
                raise Differs(f"charge {at + 1}: kept {kept}, reckoned {way.charges[at]}")

    def credit(self, way: Ledger, content: Any, answer: Any, moment: int) -> None:
        """A credit, an allowance or a redemption."""
        number = len(way.buckets) + 1
        if answer != {"Bucket": number, "Result-Code": DONE}:
            raise Differs(f"kept {answer}, reckoned bucket {number}")
        if "Voucher-Code" in content:
            code = content["Voucher-Code"]
            if code not in self.terms:
                raise Differs(f"its voucher {code} isn't there")
            days, amount = self.terms[code]["days"], self.terms[code]["amount"]
            zone = self.shelf[0].zone
            ends = NO_END if days is None else zone.day_end(moment, days)
            way.credit(Bucket(number, moment, ends, self.terms[code]["scope"], False, amount))
            return
        is_blocks = "Blocks" in content
        starts, ends = content.get("From", moment), content.get("Until", NO_END)
        amount = content["Blocks" if is_blocks else "Amount"]
        way.credit(Bucket(number, starts, ends, content.get("Scope"), is_blocks, amount))

    def moments(self, way: Ledger, row: Row, content: Any, answer: Any) -> Iterator[int]:
        """The moments that are to be tried for a command on one way."""
        first, last = self.windows[row["id"]]
        if row["kind"] == 1 and charges(content, answer):
            at = len(way.charges)
            if at < len(self.charges):
                yield self.charges[at].moment
                return
        first, last = max(first, way.now), max(last, way.now)
        yield first
        if row["kind"] == 1 and first < last:
            yield from itertools.islice(self.between(way, first, last, answer), MOST_MOMENTS)

    def between(self, way: Ledger, first: int, last: int, answer: Any) -> Iterator[int]:
        """The moments behind the first one at which something becomes another."""
        found = {book.starts for book in self.shelf}
        found |= {edge for one in way.buckets for edge in (one.starts, one.ends)}
        found |= {session.ends for session in way.sessions.values() if session.is_open}
        spans = [(first, last)]
        if not first:
            # No row tells it, as of what comes first behind a carry: near the last one, or the bucket.
            begun = max((one.starts for one in way.buckets if one.starts <= last), default=0)
            spans = [(begun, min(begun + SPAN, last)), (max(0, last - SPAN), last)]
        for span in spans:
            found |= set(self.edges(*span, answer))
        yield from sorted(moment for moment in found if first < moment <= last)

    def edges(self, first: int, last: int, answer: Any) -> Iterator[int]:
        """Where periods, switches, validity times and days become others."""
        told = {one.get("Validity-Time") for one in answer.get(SERVICES, [])} - {None}
        for book in {
            id(books.at(self.shelf, at)): books.at(self.shelf, at) for at in (first, last)
        }.values():
            change = book.other(first, last + 2 * book.validity)
            while change is not None:
                yield change
                yield change - book.validity + 1
                yield from (change - validity for validity in told)
                change = book.other(change, last + 2 * book.validity)
        day = self.shelf[0].zone.day_end(first, 0)
        while day <= last:
            yield day
            day = self.shelf[0].zone.day_end(day, 0)

    def at_end(self, way: Ledger, as_of: int) -> Iterator[tuple[str, str, str]]:
        """The first row of each table that isn't as it comes out on one way."""
        way.advance(max(as_of, way.now))
        rows = self.rows
        if len(way.charges) != len(self.charges):
            yield "charges", str(len(way.charges) + 1), "no accepted request made it"
        account = rows["accounts"][0]
        for name, wanted in (
            ("next_bucket", len(way.buckets) + 1),
            ("next_charge", len(way.charges) + 1),
        ):
            if account[name] != wanted:
                yield "accounts", name, f"kept {account[name]}, reckoned {wanted}"
        yield from differs(
            "buckets",
            {(row["number"],): bucket_row(row) for row in rows["buckets"]},
            {(one.number,): bucket_of(one, way.now) for one in way.buckets},
        )
        yield from differs(
            "counters",
            {(row["rating_group"], row["cycle"]): row["blocks"] for row in rows["counters"]},
            dict(+way.counters),
        )
        yield from self.sessions(way)

    def sessions(self, way: Ledger) -> Iterator[tuple[str, str, str]]:
        """What of sessions, their groups and holds isn't as it comes out."""
        opened = {(name,): 1 if one.is_open else 2 for name, one in way.sessions.items()}
        kept = {(row["session"],): row["state"] for row in self.rows["sessions"]}
        wanted = {key: opened.get(key, 3) for key in kept} | opened
        yield from differs("sessions", kept, wanted)
        groups, holds = groups_of(way), holds_of(way)
        yield from differs(
            "session_groups",
            {
                (row["session"], row["rating_group"]): group_row(row)
                for row in self.rows["session_groups"]
            },
            groups,
        )
        yield from differs(
            "holds",
            {
                (row["session"], row["rating_group"], row["bucket"]): row["amount"]
                for row in self.rows["holds"]
            },
            holds,
        )


def copy_of(way: Ledger) -> Ledger:
    """A way of its own that goes on from one."""
    return copy.deepcopy(way, {id(way.shelf): way.shelf, id(way.last): way.last})


def charges(content: Any, answer: Any) -> bool:
    """Whether an accepted request makes a charge: a debit, or a report of a group of its book."""
    if answer.get("Result-Code") != DONE:
        return False
    services, told = content.get(SERVICES, []), answer.get(SERVICES, [])
    if content["CC-Request-Type"] == EVENT:
        return bool(told)
    return any(
        USED in service and one.get("Result-Code") != UNRATED
        for service, one in zip(services, told)
    )


def differs(
    table: str, kept: dict[Any, Any], wanted: dict[Any, Any]
) -> Iterator[tuple[str, str, str]]:
    """The first row of a table that isn't as it is reckoned."""
    if kept == wanted:
        return
    for key in sorted(kept.keys() | wanted.keys(), key=str):
        if kept.get(key) != wanted.get(key):
            name = " ".join(map(str, key))
            yield table, name, f"kept {kept.get(key)}, reckoned {wanted.get(key)}"
            return


def charge_of(row: Row) -> Charge:
    """A charge of the tables."""
    names = ("moment", "session", "rating_group", "blocks", "rated", "collected", "covered")
    return Charge(*(row[name] for name in names))


def bucket_row(row: Row) -> tuple[Any, ...]:
    """A bucket of the tables."""
    names = ("starts", "ends", "scope", "credited", "available", "reserved", "charged", "expired")
    return (*(row[name] for name in names), bool(row["is_blocks"]))


def bucket_of(one: Bucket, moment: int) -> tuple[Any, ...]:
    """A bucket as it is reckoned."""
    return (one.starts, one.ends, one.scope, one.credited, *one.columns(moment), one.is_blocks)


def group_row(row: Row) -> tuple[Any, ...]:
    """A session's group of the tables: its use, and the terms of its reservation."""
    names = ("used", "reserved", "period_before", "period_after", "book")
    return tuple(row[name] for name in names)


def groups_of(way: Ledger) -> dict[tuple[str, int], tuple[Any, ...]]:
    """The groups of sessions as they are reckoned."""
    found: dict[tuple[str, int], tuple[Any, ...]] = {}
    none = (0, None, None, None)
    for (name, group), units in way.events.items():
        found[name, group] = (units, *none)
    for name, session in way.sessions.items():
        for group in session.used.keys() | session.grants.keys() | session.known:
            grant = session.grants.get(group)
            terms = none if grant is None else (1, grant.before, grant.after, grant.book)
            found[name, group] = (session.used.get(group, 0), *terms)
    return found


def holds_of(way: Ledger) -> dict[tuple[str, int, int], int]:
    """What reservations hold of buckets as they are reckoned."""
    found = collections.Counter[tuple[str, int, int]]()
    for name, session in way.sessions.items():
        for group, grant in session.grants.items():
            found.update({(name, group, number): amount for number, amount in grant.holds.items()})
    return dict(found)
