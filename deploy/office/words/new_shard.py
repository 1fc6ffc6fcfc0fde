"""Makes the database of a shard that has none, for the books of the others from today's on.

    office new-shard 05

First say `more = 1` in the office's file; afterwards `office up` starts the shard and puts it behind
the doors, and `office move` moves accounts to it."""
from __future__ import annotations

import argparse
import pathlib
import time

from office import copies, options, places, program, shards
from office.carry import turn
from office.carry.plan import Plan
from office.faults import Refused
from office.settings import Settings
from office.tables import opened


def add(parser: argparse.ArgumentParser) -> None:
    """Adds the word's arguments."""
    parser.add_argument("shard", metavar="SHARD")
    options.dry_run(parser)


def run(settings: Settings, arguments: argparse.Namespace) -> int:
    """Makes the database."""
    shard = shards.named(settings, arguments.shard)
    if shard.database.exists():
        raise Refused(f"{shard.database} is there")
    if arguments.dry_run:
        print(f"{shard.database} would be made")
        return 0
    first = next((one for one in shards.of(settings) if one.database.exists()), None)
    if not first:
        raise Refused("no shard has a database yet, whose books this one would have: `ocs init`")
    with copies.made(settings, [first]) as made, opened(made[0]) as database:
        plan = Plan(database, int(time.time()), lambda _: False)
    plan.vouchers = []
    part = shard.database.with_name(f"{shard}.new.db")
    places.discard(part)
    turn.make(settings, plan, part)
    places.ready(settings, shard, part)
    places.swap(shard, None)
    places.discard(part)
    program.give(settings, shard.database)
    # HAProxy reads the file of moved accounts from now on, so it has to be there.
    pathlib.Path(settings.office.moved).touch()
    print(f"{shard.database} has the books of {first}: {len(plan.books)}")
    return 0
