"""What is seen of a shard now, as numbers: its answer, its files, its copies.

The measures and the agent call `of_shard`. It costs two requests, bounded in time, and a look at the
files; no database that is served is opened."""
from __future__ import annotations

import http.client
import json
import os
import pathlib
import time
from typing import Any

from office import nights, redemption, sweeps, tables
from office.client import SocketConnection
from office.faults import Fault
from office.seen import starts
from office.settings import Settings
from office.shards import Homes, Shard

Numbers = dict[str, float | None]


def of_shard(
    settings: Settings, shard: Shard, clearing: dict[str, str], *, by_scripts: bool = False
) -> Numbers:
    """The numbers of a shard by their names; None where one isn't known."""
    told = files(shard)
    took = probed(settings, shard, by_scripts)
    told |= {"up": 0 if took is None else 1, "probe_seconds": took}
    account = clearing.get(shard.number)
    seen = None if took is None or not account else balance_moment(settings, account)
    copy = last_copy(settings, shard)
    told["ahead_seconds"] = ahead(seen, copied_moment(copy))
    told["copied_timestamp_seconds"] = moment_of(copy)
    told["swept_timestamp_seconds"] = moment_of(sweeps.mark(shard))
    return told


def probed(settings: Settings, shard: Shard, by_scripts: bool) -> float | None:
    """Seconds until a shard answered; None where it didn't in time. The watchers' door asks before
    all that wait; the scripts' one is asked where there is none, or who asks reaches no port."""
    watched = [door.at for door in settings.doors if door.role == "watcher"]
    begun = time.monotonic()
    if watched and not by_scripts:
        told = asked(settings, watched[0], f"/health/{shard}")
    else:
        told = asked(settings, settings.scripts(), "/accounts/0", shard.number)
    return None if told is None else time.monotonic() - begun


def balance_moment(settings: Settings, account: str) -> int | None:
    """The moment of an account's balance: never before the last accepted command of its shard."""
    told = asked(settings, settings.scripts(), f"/accounts/{account}")
    moment = told.get("Moment") if told else None
    return moment if isinstance(moment, int) else None


def asked(settings: Settings, door: str, path: str, shard: str = "") -> dict[str, Any] | None:
    """The JSON object of an answer 200 within the seconds of a probe; None without one."""
    connection = connection_to(door, settings.measures.probe)
    try:
        connection.request("GET", path, headers={"Office-Shard": shard} if shard else {})
        answer = connection.getresponse()
        told = json.loads(answer.read()) if answer.status == 200 else None
    except (OSError, ValueError, http.client.HTTPException):
        return None
    finally:
        connection.close()
    return told if isinstance(told, dict) else None


def connection_to(door: str, seconds: float) -> http.client.HTTPConnection:
    """A connection to a door: a port or a socket's path."""
    if door.startswith("/"):
        return SocketConnection(door, seconds)
    return http.client.HTTPConnection(door, timeout=seconds)


def files(shard: Shard) -> Numbers:
    """The bytes of a shard's files, and the room on their disk; none where it has no database."""
    try:
        free = os.statvfs(shard.database)
    except OSError:
        return {}
    log = size_of(shard.database.with_name(shard.database.name + "-wal"))
    room = float(free.f_bavail * free.f_frsize)
    return {"bytes": starts.size(shard), "log_bytes": log, "room_bytes": room}


def size_of(path: pathlib.Path) -> int:
    """The bytes of a file; 0 where it isn't there."""
    return path.stat().st_size if path.exists() else 0


def moment_of(path: pathlib.Path) -> float | None:
    """When a file was last written; None where it isn't there."""
    return path.stat().st_mtime if path.exists() else None


def ahead(*moments: int | None) -> float | None:
    """How far the latest of these is ahead of the clock; None where none is known."""
    known = [moment for moment in moments if moment is not None]
    return max(0.0, max(known) - time.time()) if known else None


def last_copy(settings: Settings, shard: Shard) -> pathlib.Path:
    """A shard's newest copy: of the last night (`office backups`), or one beside its database
    (`office backup`); the latter where there is none."""
    alone = shard.database.with_name(f"backup-{shard}.db")
    try:
        night = nights.last(settings) / f"{shard}.db"
    except Fault:
        return alone
    return max(alone, night, key=lambda path: moment_of(path) or 0.0)


def copied_moment(path: pathlib.Path) -> int | None:
    """The last moment in a copy, which is one of its shard's; None without a copy of this version."""
    try:
        with tables.opened(path, is_still=True) as copy:
            return copy.last_moment
    except Fault:
        return None


def clearing_accounts(settings: Settings) -> dict[str, str]:
    """A clearing account of each shard, by the shard's number; none where there is no file."""
    homes = Homes(settings)
    try:
        return {homes.home(account).number: account for account in redemption.clearings(settings)}
    except Fault:
        return {}
