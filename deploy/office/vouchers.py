"""Where the codes of vouchers are: one shard has each, and no archive has it as spent.

`office import` asks before it adds a file, and `restore` and `carry` after them. It costs a walk over
the vouchers of each database."""
from __future__ import annotations

import collections
import csv
import pathlib
from collections.abc import Iterable, Iterator

from office.faults import Refused, Unread
from office.settings import Settings
from office.tables import Database, opened

FEW = 3


def codes_of(file: pathlib.Path) -> list[str]:
    """The codes of a file of vouchers; what else is in it the program judges."""
    try:
        with file.open(encoding="utf-8-sig", newline="") as stream:
            rows = [row for row in csv.reader(stream) if row]
    except (OSError, UnicodeDecodeError, csv.Error) as fault:
        raise Unread(f"{file}: {fault}") from fault
    return [row[0] for row in rows[1:]]


def archives(settings: Settings) -> Iterator[pathlib.Path]:
    """The databases that `carry` left behind."""
    yield from sorted(pathlib.Path(settings.keeping.archive).glob("*.db"))


def there(database: Database, codes: set[str]) -> dict[str, str | None]:
    """Which of these codes a database has, with the account that each was spent by."""
    rows = database.rows("SELECT code, account FROM vouchers")
    return {row["code"]: row["account"] for row in rows if row["code"] in codes}


def places(copies: Iterable[pathlib.Path], codes: set[str]) -> dict[str, set[str]]:
    """The codes that each shard has, of copies that are named by their shards."""
    found = {}
    for copy in copies:
        with opened(copy) as database:
            found[copy.stem] = set(there(database, codes))
    return found


def chosen(copies: list[pathlib.Path], codes: set[str], wanted: str, hashed: set[str]) -> str:
    """The shard for a file: the wanted one, else the one that has codes of it, else the one of the
    hash with the fewest that aren't spent; these have clearing accounts. Refused where another shard
    has one of the codes."""
    having = {shard: found for shard, found in places(copies, codes).items() if found}
    shard = (
        wanted
        or next(iter(having), "")
        or emptiest([copy for copy in copies if copy.stem in hashed])
    )
    for other, found in having.items():
        if other != shard:
            raise Refused(
                f"shard {other} has {few(found)}: in shard {shard} too each could be spent twice"
            )
    return shard


def emptiest(copies: list[pathlib.Path]) -> str:
    """The shard with the fewest vouchers that aren't spent."""
    counts = collections.Counter[str]()
    for copy in copies:
        with opened(copy) as database:
            asked = "SELECT count(*) FROM vouchers WHERE account IS NULL"
            counts[copy.stem] = int(database.one(asked))
    return min(counts, key=lambda shard: (counts[shard], shard))


def are_unspent(settings: Settings, codes: set[str]) -> None:
    """Refuses codes that an archive has as spent: added again they could be spent again."""
    for path in archives(settings):
        with opened(path, is_still=True) as database:
            spent = {code for code, account in there(database, codes).items() if account}
        if spent:
            raise Refused(f"{path} has {few(spent)} as spent: added again it could be spent again")


def few(codes: set[str]) -> str:
    """Some codes, by the first of them."""
    told = ", ".join(sorted(codes)[:FEW])
    more = len(codes) - FEW
    return f"{told} and {more} codes more" if more > 0 else told
