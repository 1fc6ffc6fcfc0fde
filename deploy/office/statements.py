"""Statements and exports of a month for all accounts of a database, in one pass (docs/FORMATS.md,
"Statements and exports").

`office statements` and `office exports` call it over copies. The bytes are those of the program's
word `statement` at the same moment. It costs a walk over the buckets and the month's charges."""
from __future__ import annotations

import calendar
import itertools
from collections.abc import Iterable, Iterator

from office import accounts, books
from office.accounts import Bucket
from office.civil import Zone
from office.tables import Database, Row

CHARGES = """
    SELECT c.*, coalesce(v.blocks, 0) AS covered FROM charges c
    LEFT JOIN covered v USING (account, number)
    WHERE c.moment BETWEEN ? AND ? ORDER BY c.account, c.number"""
USES = (
    "    MOMENT      GROUP     BLOCKS               RATED           COLLECTED         UNCOLLECTED"
)
MONEY = "    BUCKET         CREDITED        AVAILABLE         RESERVED          CHARGED          EXPIRED"
BLOCKS = (
    " ALLOWANCE      GROUP         CREDITED        AVAILABLE         RESERVED          CHARGED"
    "          EXPIRED"
)
EXPORT = "moment,session,group,blocks,rated,collected,uncollected,covered"
DAY = 86_400


def statements(database: Database, month: str, moment: int) -> Iterator[tuple[str, str]]:
    """Each account with its statement, as of a moment that isn't before the last one."""
    by_account = itertools.groupby(accounts.buckets(database, moment), lambda one: one.account)
    buckets = Merged((account, list(those)) for account, those in by_account)
    for account, charges in with_charges(database, month):
        yield account, statement(account, month, moment, charges, buckets.of(account))


def exports(database: Database, month: str) -> Iterator[tuple[str, str]]:
    """Each account with the charges of its month as CSV."""
    for account, charges in with_charges(database, month):
        yield account, export(charges)


def export(charges: Iterable[Row]) -> str:
    """Charges as CSV."""
    return "\n".join([EXPORT, *map(record, charges)]) + "\n"


class Merged:
    """Lists by account, walked beside the accounts in the same order."""

    def __init__(self, pairs: Iterable[tuple[str, list[Bucket]]]) -> None:
        self.pairs = iter(pairs)
        self.next = next(self.pairs, None)

    def of(self, account: str) -> list[Bucket]:
        """The list of an account, empty where it has none."""
        if self.next is None or self.next[0] != account:
            return []
        found = self.next[1]
        self.next = next(self.pairs, None)
        return found


def with_charges(database: Database, month: str) -> Iterator[tuple[str, list[Row]]]:
    """Each account with its charges of a month."""
    zone = books.shelf(database)[0].zone
    rows = (
        row
        for row in database.rows(CHARGES, *around(zone, month))
        if zone.month(row["moment"]) == month
    )
    by_account = itertools.groupby(rows, lambda row: str(row["account"]))
    pair = next(by_account, None)
    for each in database.rows("SELECT account FROM accounts ORDER BY account"):
        account, charges = each["account"], list[Row]()
        if pair is not None and pair[0] == account:
            charges = list(pair[1])
            pair = next(by_account, None)
        yield account, charges


def around(zone: Zone, month: str) -> tuple[int, int]:
    """Moments before and behind all of a civil month, a fold at its edge among them."""
    year, number = int(month[:4]), int(month[4:])
    days = calendar.monthrange(year, number)[1]
    first = zone.typed(f"{year:04}-{number:02}-01T00:00")
    return first - DAY, first + (days + 1) * DAY


def statement(
    account: str, month: str, moment: int, charges: list[Row], those: list[Bucket]
) -> str:
    """The statement of an account."""
    money = [one for one in those if not one.is_blocks]
    blocks = [one for one in those if one.is_blocks]
    sums = [sum(row[name] for row in charges) for name in ("rated", "collected", "uncollected")]
    lines = [f"ACCOUNT {account} MONTH {month} MOMENT {moment}", USES]
    lines += map(use, charges)
    lines.append(f"{'TOTAL':>21} {sum(row['blocks'] for row in charges):>10} " + wide(19, sums))
    lines.append(MONEY)
    lines += [f"{one.number:>10} " + wide(16, one.amounts()) for one in money]
    if blocks:
        lines.append(BLOCKS)
        lines += [f"{one.number:>10} {one.scope:>10} " + wide(16, one.amounts()) for one in blocks]
    lines.append(f"COLLECTED TO DATE {sum(one.charged for one in money)}")
    if blocks:
        lines.append(f"COVERED TO DATE {sum(one.charged for one in blocks)}")
    return "\n".join(lines) + "\n"


def use(row: Row) -> str:
    """The line of a charge."""
    first = wide(10, (row["moment"], row["rating_group"], row["blocks"]))
    return f"{first} {wide(19, (row['rated'], row['collected'], row['uncollected']))}"


def wide(width: int, numbers: Iterable[int]) -> str:
    """Numbers set right in columns of a width."""
    return " ".join(f"{number:>{width}}" for number in numbers)


def record(row: Row) -> str:
    """A charge as a record of CSV."""
    names = ("blocks", "rated", "collected", "uncollected", "covered")
    numbers = ",".join(str(row[name]) for name in names)
    return f"{row['moment']},{quoted(row['session'])},{row['rating_group']},{numbers}"


def quoted(text: str) -> str:
    """A field of CSV, in quotes where it needs them (RFC 4180)."""
    needs = any(each in text for each in ',"\r\n') or text == ""
    return '"' + text.replace('"', '""') + '"' if needs else text
