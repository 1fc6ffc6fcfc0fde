"""A shard's new database, in the place of its old one, which becomes an archive.

The word `carry` calls `shard`. Requests wait in HAProxy while the new one is filled: two to four
milliseconds a request of the plan. Stopped anywhere, -9 as well, the shard goes on with one of the
two, whole; the same word again begins anew, or puts the archive's name right."""
from __future__ import annotations

import os
import pathlib
import time
from collections.abc import Iterator

from office import copies, disk, operate, places, program, shards, spare
from office.alone import alone, held, settle
from office.archive import known, past
from office.audit import reckoned, strays
from office.audit.findings import Finding
from office.carry import moving, repeats
from office.carry.plan import Plan, rows
from office.client import compact
from office.faults import Refused
from office.progress import shown
from office.scratch import scratch
from office.settings import Settings
from office.shards import Shard
from office.tables import Database, opened

THERE = {"Refusal": "O1"}
DONE = 2001
# Findings and hindrances that are told of a database; seconds that a request of the plan takes, and
# that a turn waits at most for the clock.
MOST, EACH, PATIENCE = 20, 0.004, 1.5


def shard(settings: Settings, one: Shard, is_audited: bool, may_wait: bool) -> None:
    """Carries a shard; refused, it goes on as it is."""
    if not settings.machines:
        known.is_served(settings)
    with held(settings, one):
        settle(settings, one)
    with copies.made(settings, [one]) as made:
        plan = planned(settings, one, made[0], int(time.time()))
        if settings.machines and not may_wait:
            unrepeated(settings, one, made[0])
        if is_audited:
            audited(settings, made[0])
        with opened(made[0]) as read:
            keys, since = known.of_copy(read), read.last_moment
    seconds = EACH * plan.count()
    if seconds > settings.waits.start and not may_wait:
        raise Refused(
            f"shard {one} would be away for some {seconds:.0f} s, and requests wait for "
            f"{settings.waits.start} s ([waits] start): --long does it all the same"
        )
    with moving.under_way(settings), alone(settings, one, is_held=True):
        turned(settings, one, may_wait, keys, since)
        places.finish(settings, one)


def moment_behind(one: Shard) -> int:
    """The moment of a turn: the clock's, once it is behind the last command's, so that the last moment
    of a copy says on which side of the turn it was made. A shard that is ahead of the clock isn't
    waited for."""
    last, end = operate.last_moment(one), time.monotonic() + PATIENCE
    while int(time.time()) == last and time.monotonic() < end:
        time.sleep(0.02)
    return int(time.time())


def planned(settings: Settings, one: Shard, database: pathlib.Path, at: int) -> Plan:
    """What is carried of a database of the shard; refused where something can't be."""
    homes = shards.Homes(settings)
    with opened(database) as read:
        plan = Plan(read, at, lambda account: homes.home(account) == one)
    if plan.sessions:
        few = ", ".join(plan.sessions[:3]) + (", .." if len(plan.sessions) > 3 else "")
        raise Refused(f"shard {one} has {len(plan.sessions)} live sessions: {few}")
    return plan


def unrepeated(settings: Settings, one: Shard, database: pathlib.Path) -> None:
    """Refuses a database of which requests may be repeated whose answers didn't arrive."""
    with opened(database) as read:
        those = list(repeats.expected(settings, read))
    if those:
        raise Refused(
            f"shard {one} has accepted {len(those)} requests in {repeats.MINUTES} minutes whose "
            f"answers didn't arrive, and whose repeats would be accepted anew (--long carries all "
            f"the same): {', '.join(those[:3])}"
        )


def audited(settings: Settings, copy: pathlib.Path) -> None:
    """Refuses a copy of which an audit finds something."""
    with opened(copy) as read:
        found = [*strays.findings(copy.stem, read), *reckoned.findings(copy.stem, read)]
        found += forgotten(settings, copy.stem, read)
    if found:
        told = "\n  ".join(map(str, found[:MOST]))
        raise Refused(f"the audit has {len(found)} findings (--unaudited carries it):\n  {told}")


def forgotten(settings: Settings, shard: str, read: Database) -> Iterator[Finding]:
    """Accounts that moved to a shard, and live elsewhere by the file of moved accounts: without their
    lines there a carry would leave them behind."""
    homes, moved = shards.Homes(settings), past.moved_to(settings, shard)
    for row in read.rows("SELECT account FROM accounts ORDER BY account"):
        home = str(homes.home(row["account"]))
        if row["account"] in moved and home != shard:
            what = f"moved here by its archive, and lives in {home} by {settings.office.moved}"
            yield Finding(shard, "accounts", row["account"], what)


def turned(settings: Settings, one: Shard, may_wait: bool, keys: known.Filter, since: int) -> None:
    """Makes the new database of a shard that is stopped, and puts it in the old one's place, once the
    old one answers what is repeated of it. `keys` are those of a copy, which had its last moment then.

    With two machines a request that the stop cut off may have been accepted, so the log is asked again
    when the shard stands."""
    new = places.new_of(one)
    places.discard(new)
    try:
        plan = planned(settings, one, one.database, moment_behind(one))
        make(settings, plan, new)
        with opened(new) as read:
            found = Plan(read, plan.at, lambda _: True)
        differs = plan.differs(found)
        if differs:
            raise Refused(f"the new database of shard {one} has other {differs}")
        if settings.machines and not may_wait:
            unrepeated(settings, one, one.database)
        places.ready(settings, one, new)
        name = archive(settings, one, plan.at)
        if not settings.machines:
            with opened(one.database) as read:
                known.add_since(keys, read, since)
            known.put(settings, name, keys)
        places.swap(one, None)
        print("\n".join(f"{one} {line}" for line in found.sums()))
    except BaseException:
        settle(settings, one)
        raise
    finally:
        places.discard(new)


def make(settings: Settings, plan: Plan, new: pathlib.Path) -> None:
    """Makes a database of a plan: books, accounts, vouchers, bars."""
    for book in plan.books:
        with program.handed(settings, "book", book.text.encode()) as file:
            if book is plan.books[0]:
                program.done(settings, "init", new, file)
            else:
                program.done(settings, "book", new, file, "--from", book.starts)
    with spare.served(settings, new, "--at", plan.at) as served:
        for method, path, body in shown("carry", plan.requests(), plan.count()):
            answer = served.ask(method, path, body)
            if answer != THERE and answer.get("Result-Code") != DONE:
                raise Refused(f"{method} {path} {compact(body or {})}: {compact(answer)}")
    at = ("--at", plan.at)
    if plan.vouchers:
        with program.handed(settings, "vouchers", rows(plan.vouchers).encode()) as file:
            program.done(settings, "import", new, file, *at)
    for account in (account for account, is_barred in plan.accounts.items() if is_barred):
        program.done(settings, "bar", new, account, *at)


def archive(settings: Settings, one: Shard, at: int) -> str:
    """Makes one whole file of the old database, under a name that isn't an archive's yet; its name then.
    The archive's service reads it from there on, so it has that name once it is whole."""
    folder = pathlib.Path(settings.keeping.archive)
    folder.mkdir(mode=0o750, parents=True, exist_ok=True)
    program.give(settings, folder)
    name = f"{one}-{time.strftime(places.FORM, time.gmtime(at))}"
    path = folder / f"{name}.db{places.TURNING}"
    with scratch(folder, ".carry-") as place:
        made = place / path.name
        copies.make_whole(one.database, made)
        os.chmod(made, 0o400)
        program.give(settings, made)
        os.replace(made, path)
    disk.sync(folder)
    return name
