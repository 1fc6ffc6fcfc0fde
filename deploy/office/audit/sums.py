"""The office's sums, each account once, as CSV: charges by month, shard, book and rating group, and
buckets by the month of their first moment, shard and kind; those of archives in rows of their own.

What a carry or a move sent to bring a counter to its place is no charge and no credit. A bucket that was
carried was credited once, in the archive, and has what is left in the shard. `office audit --sums`
writes the sums; the agent has them by day. It costs a walk over charges and buckets."""
from __future__ import annotations

import collections
import csv
import dataclasses
import functools
import pathlib
from collections.abc import Callable, Iterable, Iterator, Sequence

from office import books
from office.archive.past import Part
from office.audit.together import Living
from office.civil import Zone
from office.tables import Database, Row

USES = ("charges", "blocks", "covered", "rated", "collected", "uncollected")
AMOUNTS = ("buckets", "credited", "available", "reserved", "charged", "expired")
CHARGES = """
    SELECT c.account, c.moment, c.rating_group, 1 AS charges, c.blocks,
           coalesce(v.blocks, 0) AS covered, c.rated, c.collected, c.uncollected
    FROM charges c LEFT JOIN covered v USING (account, number)
    WHERE c.moment BETWEEN ? AND ? AND NOT EXISTS (
        SELECT 1 FROM answers a WHERE a.account = c.account AND a.kind = 2 AND a.name = c.session
        AND a.name LIKE 'carry-counter-%')"""
BUCKETS = """
    SELECT b.*, b.starts AS moment, 1 AS buckets,
           CASE WHEN b.scope IS NOT NULL AND l.number IS NOT NULL
                THEN 'blocks of ' || b.scope ELSE 'money' END AS kind
    FROM buckets b LEFT JOIN allowance_buckets l USING (account, number)
    WHERE b.starts BETWEEN ? AND ?"""
NAMED = """
    SELECT account, name, json_extract(answer, '$.Bucket') AS number FROM answers WHERE kind = 2"""
Span = tuple[int, int]
# The columns that a row gets of its moment; none: it doesn't count.
When = Callable[[Zone, int], Row | None]
ALWAYS = (0, 1 << 62)


def by_month(zone: Zone, moment: int) -> Row:
    """Sums by civil month."""
    return {"month": zone.month(moment)}


@dataclasses.dataclass(frozen=True)
class Source:
    """A database, and whose rows in it count."""

    shard: str
    database: Database
    archive: str  # its name; empty where the shard lives in it
    counts: Callable[[str], bool]


def sources(living: Living, parts: Sequence[Part]) -> Iterator[Source]:
    """The archives, the oldest first, and the shards. An account that moved counts in the archive of its
    move, and no more where it left rows behind."""
    left = collections.defaultdict[str, set[str]](set)
    for part in parts:
        file, gone = part.file, frozenset(() if part.file.target else left[part.file.shard])
        out = living.clearing | gone
        yield Source(file.shard, part.database, file.name, but(out))
        if file.target:
            those = {row["account"] for row in part.database.rows("SELECT account FROM accounts")}
            left[file.shard] |= those
            left[file.target] -= those
    for shard, database in living.databases.items():
        yield Source(shard, database, "", functools.partial(living.counts, shard=shard))


def but(those: set[str] | frozenset[str]) -> Callable[[str], bool]:
    """All accounts but these."""
    return lambda account: account not in those


def charges(
    living: Living, when: When = by_month, span: Span = ALWAYS, parts: Sequence[Part] = ()
) -> Iterator[Row]:
    """Charges; their book is the one at the charge's moment."""

    def keys(shelf: list[books.Book], row: Row) -> dict[str, object]:
        book = shelf.index(books.at(shelf, row["moment"])) + 1
        return {"book": book, "rating_group": row["rating_group"]}

    for source in sources(living, parts):
        rows = source.database.rows(CHARGES, *span)
        yield from added(source, rows, keys, USES, when)


def buckets(
    living: Living, when: When = by_month, span: Span = ALWAYS, parts: Sequence[Part] = ()
) -> Iterator[Row]:
    """Buckets, of money or of blocks; amounts are those of the last command of each account."""
    seen = set[tuple[str, str]]()
    for source in sources(living, parts):
        rows = once(source, source.database.rows(BUCKETS, *span), seen)
        yield from added(source, rows, lambda _, row: {"kind": row["kind"]}, AMOUNTS, when)


def once(source: Source, rows: Iterable[Row], seen: set[tuple[str, str]]) -> Iterator[Row]:
    """The buckets of a database, of which each is credited once and available where it is now; `seen`
    has the references of those before."""
    named = {(row["account"], row["number"]): row["name"] for row in source.database.rows(NAMED)}
    for row in rows:
        name = named.get((row["account"], row["number"]), "")
        if name.startswith("carry-counter-"):
            continue
        if name.startswith("carry-") or (row["account"], name) in seen:
            row |= {"buckets": 0, "credited": 0}
        if source.archive:
            row |= {"available": 0, "reserved": 0}
        yield row
    if source.archive:
        seen |= {(account, name) for (account, _), name in named.items() if source.counts(account)}


def added(
    source: Source,
    rows: Iterable[Row],
    keys: Callable[[list[books.Book], Row], dict[str, object]],
    columns: tuple[str, ...],
    when: When,
) -> Iterator[Row]:
    """A row for each month (or what `when` says) and key of a database: the sums of the columns."""
    shelf = books.shelf(source.database)
    found: dict[tuple[object, ...], collections.Counter[str]] = {}
    names: dict[str, object] = {}
    more = {"archive": source.archive} if source.archive else {}
    for row in rows:
        dated = when(shelf[0].zone, row["moment"])
        if dated is not None and source.counts(row["account"]):
            names = dated | {"shard": source.shard} | keys(shelf, row) | more
            total = found.setdefault(tuple(names.values()), collections.Counter())
            total.update({name: row[name] for name in columns})
    for key, total in sorted(found.items(), key=lambda one: str(one[0])):
        yield dict(zip(names, key)) | {name: total[name] for name in columns}


def write(path: pathlib.Path, rows: Iterable[Row], columns: Iterable[str]) -> None:
    """Writes rows as CSV, with a header also where there is none."""
    with path.open("w", encoding="utf-8", newline="") as stream:
        out = csv.DictWriter(stream, list(columns), restval="")
        out.writeheader()
        out.writerows(rows)
