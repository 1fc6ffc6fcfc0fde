"""A file an account of all shards, for a month: what `office statements` and `office exports` share.

Each shard is copied once, and its accounts are written in one pass. A shard's folder takes its name
when it is whole, so the same words again make those that are left. What archives have of the month is
in the texts too (`archive.months`); that costs a look at each archive for each account."""
from __future__ import annotations

import argparse
import os
import pathlib
import shutil
import sys
import time
from collections.abc import Callable, Iterable

from office import civil, copies, options, shards
from office.archive import past
from office.archive.months import Months
from office.faults import Refused
from office.progress import shown
from office.settings import Settings
from office.tables import Database, opened

# The accounts of a database with their texts, of a month, as of a moment.
Texts = Callable[[Database, str, int], Iterable[tuple[str, str]]]


def add(parser: argparse.ArgumentParser) -> None:
    """The arguments of either word."""
    parser.add_argument("month", type=str, metavar="YYYYMM")
    parser.add_argument("folder", type=pathlib.Path, metavar="FOLDER")
    options.which_shards(parser)
    options.dry_run(parser)


def write(settings: Settings, arguments: argparse.Namespace, ending: str, texts: Texts) -> int:
    """Writes the files of each shard that has no folder yet."""
    month, folder = civil.month_of(arguments.month), arguments.folder
    for shard in options.chosen(settings, arguments):
        made = folder / f"{shard}"
        if made.exists():
            print(f"{shard}: {made} is there, and stays", file=sys.stderr)
        elif arguments.dry_run:
            print(f"{shard} {made} would be made")
        else:
            print(f"{shard} {of_shard(settings, shard, made, month, ending, texts)}", flush=True)
    return 0


def of_shard(
    settings: Settings,
    shard: shards.Shard,
    made: pathlib.Path,
    month: str,
    ending: str,
    texts: Texts,
) -> int:
    """Writes the files of a shard, in a folder that nobody else reads; how many."""
    part, homes = made.with_name(f".{made.name}.part"), shards.Homes(settings)
    shutil.rmtree(part, ignore_errors=True)
    try:
        part.mkdir(mode=0o700, parents=True)
    except OSError as fault:
        raise Refused(f"{part}: {fault.strerror}") from fault
    count, months = 0, Months()
    with (
        copies.made(settings, [shard], is_only_read=True) as copied,
        opened(copied[0]) as database,
        past.opened_parts(past.files(settings)) as parts,
    ):
        moment, total = max(int(time.time()), database.last_moment), accounts(database)
        with_past = months.export if ending == "csv" else months.statement
        for account, text in shown(f"{shard}", texts(database, month, moment), total):
            if homes.home(account) != shard:
                continue
            own = past.of_account(parts, account)
            if months.is_past(own, account, month):
                text = with_past(own, account, month, database, moment)
            (part / f"{account}.{ending}").write_text(text, encoding="utf-8")
            count += 1
    os.replace(part, made)
    return count


def accounts(database: Database) -> int:
    """How many accounts a database has."""
    return int(database.one("SELECT count(*) FROM accounts"))
