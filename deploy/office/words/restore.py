"""Starts a shard from a night's copy, or tries whether it could be (a drill).

    office restore 02 --drill      on the spare port alone: the shard goes on as it is
    office restore 02              the shard goes on with the copy
    office restore 02 --night 20261128T023004Z

The copy is served on the spare port, where nobody else asks. Codes of it that were redeemed since for
accounts of other shards are redeemed there again, or each could be spent twice; its own accounts get
again what codes of other shards brought them since. It is held against the doors' log: what was
answered in the day before it was made (since the shard was carried, where that is later) and isn't in
it is told as lacking, and refuses it (--lacking takes it so), but for events without granted units, of
which the log doesn't say whether they are refunds, or checks that nothing is kept of. A copy without
accounts that moved to the shard since is refused too: their rows are in the archive of the move. What
was accepted since is lost, and told: each credit, debit and session by its name, and the sums.
Then it takes the shard's place. The database that was there stays beside it as NN.db.before-MOMENT.

A drill ends with status 1 where the copy is refused. Run it each month: a copy that was never
started is a hope."""
from __future__ import annotations

import argparse
import os
import pathlib
import shutil
import time
from collections.abc import Iterator

from office import (
    alone,
    copies,
    locks,
    lost,
    nights,
    operate,
    options,
    places,
    program,
    restoring,
    shards,
    spare,
    vouchers,
)
from office.archive import known, past
from office.faults import Refused, Unread
from office.settings import Settings
from office.shards import Shard
from office.tables import opened

SUMS = """
    SELECT (SELECT count(*) FROM accounts) AS accounts, (SELECT count(*) FROM answers) AS answers,
           (SELECT count(*) FROM charges) AS charges, (SELECT sum(credited) FROM buckets) AS credited"""


def add(parser: argparse.ArgumentParser) -> None:
    """Adds the word's arguments."""
    parser.add_argument("shard", metavar="SHARD")
    parser.add_argument("--night", metavar="NAME", help="the folder of the copies (the last one)")
    parser.add_argument("--drill", action="store_true", help="try it, and change nothing")
    parser.add_argument("--lacking", action="store_true", help="also a copy that lacks answers")
    options.dry_run(parser)


def run(settings: Settings, arguments: argparse.Namespace) -> int:
    """Tries the copy, and puts it in the shard's place."""
    shard, night = shards.named(settings, arguments.shard), chosen(settings, arguments.night)
    if arguments.dry_run:
        print(f"{shard} would start from {night / f'{shard}.db'}")
        return 0
    with locks.held(settings, "restore.lock", "another restore or drill is under way"):
        restored(settings, arguments, shard, night)
    return 0


def restored(
    settings: Settings, arguments: argparse.Namespace, shard: Shard, night: pathlib.Path
) -> None:
    """Does both, while nobody else restores."""
    work = shard.database.with_name(f"{shard}.restore.db")
    try:
        tried(settings, arguments, shard, night, work)
        if arguments.drill:
            print(f"{shard} could start from {night}")
            return
        keep = shard.database.with_name(f"{shard.database.name}.before-{int(time.time())}")
        with alone.alone(settings, shard):
            places.ready(settings, shard, work)
            places.swap(shard, keep)
            print(f"{shard} starts from {night}; what was there is {keep}", flush=True)
            overtaken(settings, shard, nights.moment(night))
    finally:
        places.discard(work)


def overtaken(settings: Settings, shard: Shard, night: float) -> None:
    """Takes the shard's archives out of force that are of after a copy from which it starts: what they
    have as accepted since is lost, and may be asked for again."""
    for moment, path in places.archives(settings, shard, time.time()).items():
        if moment > night:
            os.replace(path, path.with_name(f"{path.name}.overtaken"))
            known.drop(settings, path.stem)
            print(f"{shard} archive {path} is of after the copy: it answers nothing any more")


def chosen(settings: Settings, name: str | None) -> pathlib.Path:
    """The night that the words name, or the last one; refused where its copies aren't whole."""
    if name and not nights.NAME.fullmatch(name):
        raise Unread(f"{name!r} is no night, such as 20261128T023004Z")
    night = pathlib.Path(settings.keeping.copies) / name if name else nights.last(settings)
    if not nights.is_whole(night):
        raise Refused(f"{night}: its copies aren't there, or aren't those that were made")
    return night


def tried(
    settings: Settings,
    arguments: argparse.Namespace,
    shard: Shard,
    night: pathlib.Path,
    work: pathlib.Path,
) -> None:
    """Opens the copy where nobody else asks, and makes it what the other shards need it to be."""
    source = night / f"{shard}.db"
    if not source.is_file():
        raise Refused(f"{source} isn't there")
    places.discard(work)
    work.touch(0o600)
    shutil.copyfile(source, work)
    program.give(settings, work)
    operate.is_now(shard, last_moment(work))
    gone = sorted(moved_here(settings, shard, work))
    if gone and not arguments.lacking:
        few = ", ".join(gone[:3]) + (", .." if len(gone) > 3 else "")
        raise Refused(f"{night}: {len(gone)} accounts that moved to shard {shard} since: {few}")
    print("\n".join(sums(work)))
    others = [each for each in shards.of(settings) if each != shard and each.database.exists()]
    with copies.made(settings, others) as made:
        used = restoring.of_others([*made, *vouchers.archives(settings)], shard)
    own = places.archives(settings, shard, nights.moment(night))
    with spare.served(settings, work) as served:
        served.ask("GET", "/accounts/0")
        for line in restoring.again(settings, served, shard, source, used, own.values()):
            print(line)
    compare(settings, arguments, shard, night, work)


def moved_here(settings: Settings, shard: Shard, copy: pathlib.Path) -> Iterator[str]:
    """The accounts that live in a shard by their moves, and that a copy of it hasn't."""
    homes, moved = shards.Homes(settings), past.moved_to(settings, str(shard))
    with opened(copy) as read:
        there = {row["account"] for row in read.rows("SELECT account FROM accounts")}
    yield from (account for account in moved - there if homes.home(account) == shard)


def compare(
    settings: Settings,
    arguments: argparse.Namespace,
    shard: Shard,
    night: pathlib.Path,
    work: pathlib.Path,
) -> None:
    """Holds the copy against the doors' log: a day before it was made, where the shard wasn't carried
    meanwhile, and since."""
    begun = nights.moment(night)
    first = max(begun - nights.DAY, places.carried(settings, shard, begun) + 1)
    found = list(lost.since(settings, work, shard, first))
    # A check of a balance is an event too, of which nothing is kept.
    lacking = [one for one in found if one.ended() < begun and one.kind() != lost.EVENTS]
    since = [one for one in found if one.ended() >= begun]
    for one in since:
        print(one)
    print(lost.summed(since))
    if lacking and not arguments.lacking:
        told = "\n  ".join(map(str, lacking))
        raise Refused(f"{night}: {len(lacking)} answers of before it aren't in it:\n  {told}")


def last_moment(database: pathlib.Path) -> int:
    """The last moment of a database."""
    with opened(database) as read:
        return read.last_moment


def sums(database: pathlib.Path) -> Iterator[str]:
    """What a copy has."""
    with opened(database) as read:
        row = next(read.rows(SUMS))
    yield "copy " + " ".join(f"{name} {count or 0}" for name, count in row.items())
