"""What has to hold of all shards together, and since earlier copies.

An account's rows may be in two databases: those that were left where it lived before it moved. It
lives where a request for it goes."""
from __future__ import annotations

import collections
import contextlib
import json
import pathlib
import time
from collections.abc import Iterator, Sequence

from office import books
from office.archive.past import NAME, moment_of
from office.audit.findings import Finding
from office.restoring import CLEARED, CREDITED
from office.shards import Homes
from office.tables import Database, opened, uri

Named = dict[str, Database]
ACCOUNTS = "SELECT account FROM accounts"


class Living:
    """Which rows of accounts count: those in the shard where the account lives."""

    def __init__(
        self,
        homes: Homes,
        clearing: set[str],
        databases: Named,
        archives: Sequence[pathlib.Path] = (),
    ) -> None:
        self.homes, self.clearing, self.databases = homes, clearing, databases
        self.archives = archives
        self.known: dict[str, str] = {}

    def is_at(self, account: str, shard: str) -> bool:
        """Whether an account lives in a shard."""
        if account not in self.known:
            self.known[account] = str(self.homes.home(account))
        return self.known[account] == shard

    def counts(self, account: str, shard: str) -> bool:
        """Whether an account's rows in a shard are part of the office's sums."""
        return account not in self.clearing and self.is_at(account, shard)


def findings(living: Living) -> Iterator[Finding]:
    """What is found over all databases."""
    yield from homeless(living)
    yield from codes(living)
    yield from redemptions(living)
    yield from shelves(living.databases)


def homeless(living: Living) -> Iterator[Finding]:
    """Accounts that aren't in the shard where they are asked for, or in another one too that they
    didn't leave."""
    places, left = collections.defaultdict[str, set[str]](set), moved_from(living.archives)
    for shard, database in living.databases.items():
        for row in database.rows(ACCOUNTS):
            places[row["account"]].add(shard)
    for account, shards in sorted(places.items()):
        home = str(living.homes.home(account))
        if home not in shards and home in living.databases:
            what = f"is asked for in {home}, where it isn't"
            yield Finding("+".join(sorted(shards)), "accounts", account, what)
        for shard in sorted(shards - {home}) if home in shards else ():
            if account not in left[shard]:
                what = f"lives in {home}, and no archive says that it moved there"
                yield Finding(shard, "accounts", account, what)


def moved_from(archives: Sequence[pathlib.Path]) -> dict[str, set[str]]:
    """The accounts that moved from each shard, by the archives of their moves."""
    found = collections.defaultdict[str, set[str]](set)
    for path in archives:
        told = NAME.fullmatch(path.stem)
        if told and told[3]:
            with opened(path, is_still=True) as database:
                found[told[1]] |= {row["account"] for row in database.rows(ACCOUNTS)}
    return found


def codes(living: Living) -> Iterator[Finding]:
    """Codes in more than one database."""
    found = collections.defaultdict[str, list[str]](list)
    for shard, database in living.databases.items():
        for row in database.rows("SELECT code, account FROM vouchers"):
            if row["account"] is None or living.is_at(row["account"], shard):
                found[row["code"]].append(shard)
    for code, shards in sorted(found.items()):
        if len(shards) > 1:
            yield Finding("+".join(shards), "vouchers", code, "in more than one shard")


def redemptions(living: Living) -> Iterator[Finding]:
    """Codes that one shard redeemed for an account of another, beside that account's credit. A shard
    that was carried may have either in an archive alone, and an account that moved in its old shard.
    """
    cleared, credited = (collections.defaultdict[str, set[str]](set) for _ in range(2))
    own = dict[str, str]()
    for database in every(living):
        for row in database.rows("SELECT account, name, content FROM answers WHERE kind = 2"):
            if told := CLEARED.fullmatch(row["name"]):
                cleared[told[1]].add(told[2])
            elif told := CREDITED.fullmatch(row["name"]):
                credited[told[1]].add(row["account"])
            elif '"Voucher-Code":' in row["content"]:
                own[json.loads(row["content"])["Voucher-Code"]] = row["account"]
    for code in sorted(cleared.keys() | credited.keys()):
        if cleared[code] != credited[code]:
            by = f", redeemed by {own[code]}" if code in own else ""
            what = f"cleared for {named(cleared[code])}, credited to {named(credited[code])}{by}"
            yield Finding("all", "vouchers", code, what)


def every(living: Living) -> Iterator[Database]:
    """The databases of all shards, and their archives, one after another."""
    yield from living.databases.values()
    for path in living.archives:
        with opened(path, is_still=True) as database:
            yield database


def named(accounts: set[str]) -> str:
    """Accounts as a finding says them."""
    return " ".join(sorted(accounts)) or "None"


def shelves(databases: Named) -> Iterator[Finding]:
    """Shards whose books aren't those of the first one, from now on."""
    now, wanted = int(time.time()), None
    for shard, database in databases.items():
        shelf = books.shelf(database)
        current = shelf.index(books.at(shelf, now))
        found = [(max(now, book.starts), book.text) for book in shelf[current:]]
        wanted = found if wanted is None else wanted
        if found != wanted:
            later = " ".join(str(starts) for starts, _ in found[1:]) or "none"
            what = f"not those of {next(iter(databases))}; its later ones begin at: {later}"
            yield Finding(shard, "books", "from now on", what)


# What stays as it is once it is accepted.
KEPT = {
    "answers": "account, kind, name, number, content, answer",
    "charges": "account, number, moment, session, rating_group, blocks, rated, collected, "
    "uncollected",
    "covered": "account, number, blocks",
    "buckets": "account, number, starts, ends, scope, credited",
    "accounts": "account",
    "books": "number, starts, content",
    "meta": "book",
    "vouchers": "code, amount, days, scope",
}
BARS = """
    SELECT a.account, a.barred FROM main.accounts a JOIN earlier.accounts e USING (account)
    WHERE a.barred <> e.barred"""


def since(
    shard: str, database: Database, earlier: pathlib.Path, archives: Sequence[pathlib.Path] = ()
) -> Iterator[Finding]:
    """What an earlier copy has and this one hasn't, and bars that changed. Where the shard was carried
    since, its archive has to have it."""
    with contextlib.ExitStack() as kept:
        turned = archive_since(shard, earlier, archives)
        whole = kept.enter_context(opened(turned, is_still=True)) if turned else database
        with beside(whole, earlier):
            yield from gone(shard, whole)
        with beside(database, earlier):
            for row in database.rows(BARS):
                told = "barred" if row["barred"] else "no longer barred"
                yield Finding(shard, "accounts", row["account"], f"{told} since the earlier copy")


def archive_since(
    shard: str, earlier: pathlib.Path, archives: Sequence[pathlib.Path]
) -> pathlib.Path | None:
    """The archive of a shard's first turn after an earlier copy. What a turn carries has its moment."""
    with opened(earlier) as copy:
        last = copy.last_moment
    for path in sorted(archives):
        told = NAME.fullmatch(path.stem)
        if told and told[1] == shard and not told[3] and 0 < last < moment_of(path.stem):
            return path
    return None


@contextlib.contextmanager
def beside(database: Database, earlier: pathlib.Path) -> Iterator[None]:
    """An earlier copy is `earlier` in the database's queries."""
    database.store.execute("ATTACH ? AS earlier", (uri(earlier),))
    try:
        yield
    finally:
        database.store.execute("DETACH earlier")


def gone(shard: str, database: Database) -> Iterator[Finding]:
    """What the earlier copy beside a database has, and it hasn't."""
    for table, columns in KEPT.items():
        rows = database.rows(
            f"SELECT {columns} FROM earlier.{table} EXCEPT SELECT {columns} FROM main.{table}"
        )
        for row in rows:
            key = " ".join(str(value)[:80] for value in list(row.values())[:4])
            yield Finding(shard, table, key, "not as in the earlier copy")
