"""Prints an account's statement of a month, or its charges as CSV.

    office statement 49151 202611 [--csv]
    office statement 49151 202610 --archive /var/lib/ocs/archive/02-20261101T000000Z.db

The bytes are those of the program's own word over a copy of the account's shard, so no request
waits for it. `office statements` makes those of all accounts. Where archives of carries and moves have a
part of the month, its charges are there too, in their order; a month that ended before the last carry is
as of that carry, and says its moment. --archive prints what the program prints of that one alone."""
from __future__ import annotations

import argparse
import pathlib
import sys
import time

from office import civil, copies, operate, program
from office.archive import past
from office.archive.months import Months
from office.faults import Unread
from office.settings import Settings
from office.tables import opened


def add(parser: argparse.ArgumentParser) -> None:
    """Adds the word's arguments."""
    parser.add_argument("account", metavar="ACCOUNT")
    parser.add_argument("month", metavar="YYYYMM")
    parser.add_argument("--csv", action="store_true", help="the charges as CSV")
    parser.add_argument("--archive", type=pathlib.Path, metavar="FILE", help="of this archive")


def run(settings: Settings, arguments: argparse.Namespace) -> int:
    """Copies the shard, and prints what the program prints of the copy."""
    account = arguments.account
    if not operate.ACCOUNT.fullmatch(account):
        raise Unread(f"{account!r} is no account: 1 to 15 digits")
    if arguments.archive:
        return written(settings, arguments, arguments.archive)
    month = civil.month_of(arguments.month)
    found = operate.located(settings, [account])[0]
    if isinstance(found, str):
        print(found.partition(" ")[2])
        return 1
    with past.opened_parts(past.files(settings)) as parts:
        own, months = past.of_account(parts, account), Months()
        if months.is_past(own, account, month):
            with (
                copies.made(settings, [found.shard], is_only_read=True) as made,
                opened(made[0]) as database,
            ):
                moment = max(int(time.time()), database.last_moment)
                text = months.export if arguments.csv else months.statement
                sys.stdout.write(text(own, account, month, database, moment))
            return 0
    with copies.made(settings, [found.shard], is_only_read=True) as made:
        return written(settings, arguments, made[0])


def written(settings: Settings, arguments: argparse.Namespace, database: pathlib.Path) -> int:
    """Prints what the program prints of a database, of which nothing is changed."""
    with copies.twin(settings, database) as made:
        csv = ["--csv"] if arguments.csv else []
        words = ("statement", made, arguments.account, arguments.month, *csv)
        ended = program.run(settings, *words)
    sys.stdout.write(ended.stdout)
    sys.stderr.write(ended.stderr)
    return ended.returncode
