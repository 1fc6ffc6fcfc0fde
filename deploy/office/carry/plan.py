"""What of a database is carried at a moment, and why it can't be.

Reading it costs a walk over the live rows and over the operators' commands that are kept."""
from __future__ import annotations

import collections
import dataclasses
import json
from collections.abc import Callable, Iterator

from office import accounts, books
from office.accounts import Bucket
from office.books import Book
from office.client import Body
from office.tables import Database, Row

# The most that one allowance has, and one event asks for (docs/FORMATS.md).
MOST_BLOCKS, MOST_TIME, MOST_UNITS = 10**9, 4_294_967_295, 10**15
NAMES = """SELECT account, name, content, answer FROM answers
           WHERE kind = 2 AND answer LIKE '{"Bucket":%'"""
COUNTERS = "SELECT * FROM counters WHERE blocks > 0 ORDER BY account, rating_group, cycle"
VOUCHERS = "SELECT code, amount, days, scope FROM vouchers WHERE account IS NULL ORDER BY code"
Request = tuple[str, str, Body | None]


@dataclasses.dataclass(frozen=True)
class Live:
    """What is left of a live bucket, and the name that it goes under."""

    account: str
    starts: int
    ends: int
    scope: int | None
    is_blocks: bool
    left: int
    reference: str = dataclasses.field(compare=False)

    def request(self) -> Request:
        """The request that makes it."""
        kind, name = ("allowances", "Blocks") if self.is_blocks else ("credits", "Amount")
        body: Body = {
            name: self.left,
            "From": self.starts,
            "Until": self.ends,
            "Reference": self.reference,
        }
        more = {} if self.scope is None else {"Scope": self.scope}
        return "POST", f"/accounts/{self.account}/{kind}", body | more


@dataclasses.dataclass(frozen=True)
class Counter:
    """A counter on whose place prices depend, in a cycle that goes on."""

    account: str
    rating_group: int
    cycle: int
    blocks: int


class Plan:
    """What is carried, read whole before anything is made."""

    def __init__(self, database: Database, at: int, lives: Callable[[str], bool]) -> None:
        self.at = at
        shelf = books.shelf(database)
        self.books = shelf[shelf.index(books.at(shelf, at)) :]
        self.accounts = {
            account: bar for account, bar in barred(database).items() if lives(account)
        }
        self.live = [one for one in live(database, at) if one.account in self.accounts]
        self.counters = [
            one for one in counters(database, self.books, at) if one.account in self.accounts
        ]
        self.vouchers = list(database.rows(VOUCHERS))
        self.sessions = [
            f"{account} {session}"
            for account, session, _ in accounts.live(database, at)
            if account in self.accounts
        ]

    def requests(self) -> Iterator[Request]:
        """The requests that make the accounts: opened, counted, credited, in this order."""
        made = {account: [("PUT", f"/accounts/{account}", None)] for account in self.accounts}
        found: dict[str, list[Request]] = collections.defaultdict(list, made)  # type: ignore[arg-type]
        for counter in self.counters:
            found[counter.account] += seeds(self.books[0], counter)
        for bucket in self.live:
            found[bucket.account].append(bucket.request())
        for those in found.values():
            yield from those

    def count(self) -> int:
        """How many requests that is."""
        return sum(1 for _ in self.requests())

    def sums(self) -> list[str]:
        """What is carried, to the micro-unit and the block."""
        money = sum(one.left for one in self.live if not one.is_blocks)
        blocks = collections.Counter[int | None]()
        for one in self.live:
            blocks[one.scope] += one.left if one.is_blocks else 0
        told = " ".join(f"{group}:{count}" for group, count in sorted((+blocks).items(), key=str))
        return [
            f"accounts {len(self.accounts)} barred {sum(self.accounts.values())}",
            f"buckets {len(self.live)} money {money} blocks {told or 'none'}",
            f"vouchers {len(self.vouchers)} amounts {sum(row['amount'] for row in self.vouchers)}",
            f"counters {len(self.counters)} books {len(self.books)}",
        ]

    def differs(self, other: Plan) -> str:
        """What another database has otherwise; empty where it has the same."""
        pairs = {
            "accounts and bars": (self.accounts, other.accounts),
            "live buckets": (self.live, other.live),
            "vouchers": (self.vouchers, other.vouchers),
            "counters": (self.counters, other.counters),
            "books": ([book.text for book in self.books], [book.text for book in other.books]),
        }
        return ", ".join(what for what, (mine, its) in pairs.items() if mine != its)


def barred(database: Database) -> dict[str, bool]:
    """Each account, and whether it is barred."""
    rows = database.rows("SELECT account, barred FROM accounts ORDER BY account")
    return {row["account"]: bool(row["barred"]) for row in rows}


def live(database: Database, at: int) -> Iterator[Live]:
    """The live buckets in the order of their numbers. A bucket keeps its reference, so that a late
    repeat of its credit is refused or answered, and never credits again. A first moment that nobody
    said and that is ahead came from a clock that was ahead: it becomes this one."""
    named = origins(database)
    taken = {(account, name) for (account, _), (name, _) in named.items()}
    for one in accounts.buckets(database, at):
        left = one.available + one.reserved
        if not left or one.ends <= at:
            continue
        name, is_said = named.get((one.account, one.number), ("", True))
        name = name or free_name(taken, one)
        starts = one.starts if is_said else min(one.starts, at)
        yield Live(one.account, starts, one.ends, one.scope, one.is_blocks, left, name)


def free_name(taken: set[tuple[str, str]], one: Bucket) -> str:
    """A reference for a bucket that has none, as a refund's."""
    name = f"carry-{one.number}"
    while (one.account, name) in taken:
        name += "-"
    return name


def origins(database: Database) -> dict[tuple[str, int], tuple[str, bool]]:
    """The reference of each bucket that has one, and whether its first moment was said."""
    return {
        (row["account"], json.loads(row["answer"])["Bucket"]): (
            row["name"],
            "From" in json.loads(row["content"]),
        )
        for row in database.rows(NAMES)
    }


def counters(database: Database, those: list[Book], at: int) -> Iterator[Counter]:
    """The counters of cycles that go on, on whose place a price of these books depends."""
    zone = those[0].zone
    wanted = {
        (number, zone.cycle(group.cycle, at))
        for book in those
        for number, group in book.groups.items()
        if group.counts()
    }
    for row in database.rows(COUNTERS):
        if (row["rating_group"], row["cycle"]) in wanted:
            yield Counter(**row)


def seeds(book: Book, counter: Counter) -> Iterator[Request]:
    """The requests that bring a new account's counter to its place: an allowance of as many blocks,
    and a debit of them, which it covers. They cost nothing, and keep their places."""
    group = book.groups[counter.rating_group]
    units = MOST_TIME if group.member == "CC-Time" else MOST_UNITS
    most = min(MOST_BLOCKS, units // group.block)
    for part, first in enumerate(range(0, counter.blocks, most)):
        count = min(most, counter.blocks - first)
        name = f"carry-counter-{counter.rating_group}-{counter.cycle}-{part}"
        given = {"Blocks": count, "Scope": counter.rating_group, "Reference": name}
        yield "POST", f"/accounts/{counter.account}/allowances", given
        whose = {"Subscription-Id-Type": 0, "Subscription-Id-Data": counter.account}
        service = {
            "Rating-Group": counter.rating_group,
            "Requested-Service-Unit": {group.member: count * group.block},
        }
        yield "POST", "/ccr", {
            "Session-Id": name,
            "CC-Request-Type": 4,
            "CC-Request-Number": 0,
            "Requested-Action": 0,
            "Subscription-Id": whose,
            "Multiple-Services-Credit-Control": [service],
        }


def rows(vouchers: list[Row]) -> str:
    """Vouchers as the program imports them."""
    header = ["code", "amount", "days", "scope"]
    lines = [header, *([row[name] for name in header] for row in vouchers)]
    told = (",".join("" if value is None else str(value) for value in line) for line in lines)
    return "".join(f"{line}\n" for line in told)
