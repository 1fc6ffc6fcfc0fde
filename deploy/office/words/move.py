"""Moves accounts from a shard to another one, while both are served.

    office move --from 02 --to 05 49151 49152 ..
    office move --from 02 --to 05 --list FILE
    office move --from 02 --to 05 --half       every second account: a split
    office move --from 02 --to 05 --all

Some accounts at a time (--batch) wait while they move; all other requests go on. What moves is what
`office carry` carries. An account with a live session stays, and is told: the same words again move it
when the session is over. So does one that has rows in the other shard already. The codes of vouchers
stay in their shard, and so do clearing accounts. What the accounts did goes to an archive, from which
repeats of before, statements and exports are answered.

With two machines it is refused: the doors of the other one have a map of moved accounts of their own.

The file of moved accounts ([office] moved) says where each lives then; HAProxy goes by it at once.
Killed anywhere, -9 as well, what was begun is ended by a unit of systemd's. `office new-shard` makes
the database of a shard that has none.

Prints how many moved; the status is 1 where one stays."""
from __future__ import annotations

import argparse
import sys

from office import operate, redemption, shards
from office.archive import known
from office.audit.together import shelves
from office.carry import moving
from office.client import Client
from office.copies import made as copies_made
from office.faults import Refused, Unread
from office.settings import Settings
from office.shards import Shard
from office.tables import opened

PATIENCE = 60.0


def add(parser: argparse.ArgumentParser) -> None:
    """Adds the word's arguments."""
    parser.add_argument("--from", dest="source", metavar="NN")
    parser.add_argument("--to", dest="target", metavar="NN")
    operate.add(parser)
    parser.add_argument("--half", action="store_true", help="every second account of the shard")
    parser.add_argument("--all", action="store_true", help="all accounts of the shard")
    parser.add_argument("--batch", type=int, default=50, choices=range(1, 1001), metavar="N")
    parser.add_argument("--finish", action="store_true", help=argparse.SUPPRESS)


def run(settings: Settings, arguments: argparse.Namespace) -> int:
    """Moves the accounts; 1 where one stays."""
    if settings.machines:
        raise Refused(
            "the doors of the other machine have a map of moved accounts of their own, which nobody "
            "here reaches: they would go on asking the shard that an account has left"
        )
    with Client(settings, patience=PATIENCE) as client:
        if arguments.finish:
            with moving.under_way(settings):
                moving.finish(settings, client)
            return 0
        if not arguments.source or not arguments.target:
            raise Unread("--from and --to name two shards")
        source = shards.named(settings, arguments.source)
        target = shards.named(settings, arguments.target)
        if source == target:
            raise Unread("--from and --to name two shards")
        those = chosen(settings, arguments, source, target)
        if arguments.dry_run:
            print(f"{len(those)} accounts would move from {source} to {target}")
            return 0
        known.is_served(settings)
        with moving.under_way(settings) as lock, moving.guarded(lock, arguments):
            moving.finish(settings, client)
            same_books(settings, source, target)
            moved, stay = moving.move(settings, client, source, target, those, arguments.batch)
    for line in stay:
        print(line, file=sys.stderr)
    print(f"moved {moved} stay {len(stay)}")
    return 1 if stay else 0


def chosen(
    settings: Settings, arguments: argparse.Namespace, source: Shard, target: Shard
) -> list[str]:
    """The accounts of the words that live in the shard; of its half those that didn't move before."""
    homes, clearing = shards.Homes(settings), set(clearing_accounts(settings))
    if not arguments.half and not arguments.all:
        told = operate.accounts(arguments)
        for account in told:
            if account in clearing:
                raise Refused(f"{account} is a clearing account, and belongs to its shard")
        return [account for account in told if homes.home(account) == source]
    with copies_made(settings, [source]) as copied, opened(copied[0]) as database:
        rows = database.rows("SELECT account FROM accounts ORDER BY account")
        there = [row["account"] for row in rows if row["account"] not in clearing]
    lives = {account: homes.home(account) for account in there}
    own = [account for account in there if lives[account] == source]
    moved = sum(lives[account] == target for account in there)
    return own[1::2][: max(0, (len(own) + moved) // 2 - moved)] if arguments.half else own


def clearing_accounts(settings: Settings) -> list[str]:
    """The clearing accounts; none without their file."""
    try:
        return redemption.clearings(settings)
    except Refused:
        return []


def same_books(settings: Settings, source: Shard, target: Shard) -> None:
    """Refuses two shards that don't have the same books from now on."""
    with copies_made(settings, [source, target]) as copied:
        with opened(copied[0]) as one, opened(copied[1]) as other:
            told = list(shelves({str(source): one, str(target): other}))
    if told:
        raise Refused("\n  ".join(map(str, told)))
