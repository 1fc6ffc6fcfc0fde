"""Looks for rows that another hand than the program's wrote, and for what isn't true of all shards
together; and sums the office up.

    office audit                        copies of all shards, made while they are served
    office audit FILE ..                these copies, named as their shards (02.db)
    office audit --before FOLDER        and beside earlier copies, such as a night's
    office audit --sums FOLDER          and the sums, as CSV and as a page

Of each copy every account is reckoned anew from its kept contents and the tariff books, by another
hand than the program's: each kept answer, charge, bucket, counter, session and hold has to be what
comes out. Over all: each account in the shard where it is asked for, each code in one shard, codes
that went from one shard to another credited once, the same books from now on. With --before: what
was accepted by then is still there, in the archive where the shard was carried since, and bars that
changed are told, which leave no other trace.

Nothing is changed. Prints a line a finding, and their number on standard error; the status is 1 where
there is one. --sums writes charges.csv (by month, shard, book, rating group), buckets.csv (by month,
shard, kind) and index.html, each account once and without clearing accounts; what archives have is in
rows of their own, with the archive's name, whose books are counted from its own first one."""
from __future__ import annotations

import argparse
import contextlib
import pathlib
import sys
from collections.abc import Iterator

from office import copies, shards, vouchers
from office.archive import past
from office.archive.past import Part
from office.audit import page, reckoned, strays, sums, together
from office.audit.findings import Finding
from office.audit.together import Living, Named
from office.faults import Refused
from office.progress import shown
from office.settings import Settings
from office.tables import opened

CHARGES = ("month", "shard", "book", "rating_group", *sums.USES, "archive")
BUCKETS = ("month", "shard", "kind", *sums.AMOUNTS, "archive")


def add(parser: argparse.ArgumentParser) -> None:
    """Adds the word's arguments."""
    parser.add_argument("files", nargs="*", type=pathlib.Path, metavar="FILE")
    parser.add_argument("--before", type=pathlib.Path, metavar="FOLDER")
    parser.add_argument("--sums", type=pathlib.Path, metavar="FOLDER")


def run(settings: Settings, arguments: argparse.Namespace) -> int:
    """Prints what is found, and writes the sums."""
    with databases(settings, arguments.files) as read:
        archives = list(vouchers.archives(settings))
        living = Living(shards.Homes(settings), clearing(settings), read, archives)
        count = 0
        for count, one in enumerate(found(living, arguments.before), 1):
            print(one, flush=True)
        if arguments.sums:
            with past.opened_parts(past.files(settings)) as parts:
                write(living, parts, arguments.sums, count)
    print(f"findings {count} in {len(read)} databases", file=sys.stderr)
    return 1 if count else 0


@contextlib.contextmanager
def databases(settings: Settings, files: list[pathlib.Path]) -> Iterator[Named]:
    """The databases by their shards: those of the words, or copies of all."""
    with contextlib.ExitStack() as kept:
        each = shards.of(settings)
        paths = files or kept.enter_context(copies.made(settings, each, is_only_read=True))
        read = {path.stem: kept.enter_context(opened(path)) for path in paths}
        if len(read) != len(paths):
            raise Refused("two files have the name of one shard")
        yield read


def found(living: Living, before: pathlib.Path | None) -> Iterator[Finding]:
    """All findings: of each database, beside its earlier copy, and of all together."""
    for shard, database in shown("audit", living.databases.items()):
        yield from strays.findings(shard, database)
        yield from reckoned.findings(shard, database)
        earlier = before / f"{shard}.db" if before else None
        if earlier and earlier.exists():
            yield from together.since(shard, database, earlier, living.archives)
    yield from together.findings(living)


def clearing(settings: Settings) -> set[str]:
    """The clearing accounts; none without their file."""
    path = pathlib.Path(settings.office.clearing)
    return set(path.read_text(encoding="utf-8").split()) if path.exists() else set()


def write(living: Living, parts: list[Part], folder: pathlib.Path, count: int) -> None:
    """Writes the sums as CSV and as a page."""
    folder.mkdir(parents=True, exist_ok=True)
    charges = list(sums.charges(living, parts=parts))
    buckets = list(sums.buckets(living, parts=parts))
    sums.write(folder / "charges.csv", charges, CHARGES)
    sums.write(folder / "buckets.csv", buckets, BUCKETS)
    (folder / "index.html").write_text(page.page(charges, buckets, count), encoding="utf-8")
