"""A whole new database in the place of a shard's, which is stopped meanwhile.

`restore` and `carry` call `swap` within `alone`. The new one lies beside the old one as `NN.db.next`
before anything moves, and the guard of `alone` knows the name: stopped anywhere, -9 as well, the
shard goes on with one of the two, whole; `alone` calls `settle` before anything else, which puts
right what was left."""
from __future__ import annotations

import calendar
import os
import pathlib
import re
import time

from office import copies, disk, program, units
from office.settings import Settings
from office.shards import Shard

ENDS = ("-wal", "-shm")
# An archive's name ends with the moment of its turn.
FORM, NAME = "%Y%m%dT%H%M%SZ", re.compile(r"\d{8}T\d{6}Z")
# What an archive is called until the new database is in the old one's place.
TURNING = ".turning"


def next_of(shard: Shard) -> pathlib.Path:
    """Where the database lies that is about to take a shard's place."""
    return shard.database.with_name(shard.database.name + ".next")


def new_of(shard: Shard) -> pathlib.Path:
    """Where a database lies that is filled for a shard."""
    return shard.database.with_name(f"{shard}.new.db")


def ready(settings: Settings, shard: Shard, made: pathlib.Path) -> None:
    """Makes one whole file of a database and its log, as the next one of a shard."""
    path = next_of(shard)
    part = path.with_name(path.name + ".part")
    discard(part)
    try:
        copies.make_whole(made, part)
        program.give(settings, part)
        os.replace(part, path)
    finally:
        discard(part)
    disk.sync(path.parent)


def swap(shard: Shard, keep: pathlib.Path | None) -> None:
    """Puts the next database in the place of the old one, which takes the name `keep`; where that is
    none, it goes. The old one goes first, so that there is never one with another's log."""
    old = shard.database
    with units.undisturbed():
        if old.exists():
            if keep is None:
                old.unlink()
            else:
                os.replace(old, keep)
        for end in ENDS:
            log = old.with_name(old.name + end)
            if keep is not None and log.exists():
                os.replace(log, keep.with_name(keep.name + end))
            log.unlink(missing_ok=True)
        os.replace(next_of(shard), old)
        disk.sync(old.parent)


def discard(database: pathlib.Path) -> None:
    """Removes a database with its log."""
    for end in ("", *ENDS):
        database.with_name(database.name + end).unlink(missing_ok=True)


def settle(settings: Settings, shard: Shard) -> list[str]:
    """Puts right what a word that was killed left: its archive has its name where the new database
    took the shard's place, and goes with the new one where it didn't. The names of those that went.
    """
    next_one, gone = next_of(shard), list[str]()
    if next_one.exists() and shard.database.exists():
        for path in turning(settings, shard):
            gone.append(path.name.removesuffix(f".db{TURNING}"))
            path.unlink()
        next_one.unlink()
    finish(settings, shard)
    discard(new_of(shard))
    return gone


def finish(settings: Settings, shard: Shard) -> None:
    """Gives the archive of a turn its name, and says which it is."""
    for path in turning(settings, shard):
        made = path.with_name(path.name.removesuffix(TURNING))
        os.replace(path, made)
        print(f"{shard} archive {made}")


def carried(settings: Settings, shard: Shard, before: float) -> float:
    """When a shard was carried last before a moment, in seconds since 1970; 0 where it wasn't. What
    was answered until then is in its archive."""
    return max(archives(settings, shard, before), default=0.0)


def archives(settings: Settings, shard: Shard, before: float) -> dict[float, pathlib.Path]:
    """A shard's archives of before a moment, each by the moment of its turn."""
    found = {}
    for path in sorted(pathlib.Path(settings.keeping.archive).glob(f"{shard}-*.db")):
        name = path.stem.partition("-")[2]
        if NAME.fullmatch(name):
            found[float(calendar.timegm(time.strptime(name, FORM)))] = path
    return {moment: path for moment, path in found.items() if moment <= before}


def turning(settings: Settings, shard: Shard) -> list[pathlib.Path]:
    """Archives of turns that weren't ended."""
    return sorted(pathlib.Path(settings.keeping.archive).glob(f"{shard}-*.db{TURNING}"))
