"""The state of the office: each shard, what waits for it, how old its copies are; two machines.

Shards are asked side by side, each for some seconds at most (`[measures]` probe)."""
from __future__ import annotations

import concurrent.futures
import dataclasses
import time

from office import proxy, shards, units
from office.agent.asked import Asked, Body, Office
from office.faults import Fault
from office.machines import files, missing, watched
from office.seen import looks
from office.settings import Settings
from office.shards import Shard


def state(office: Office, asked: Asked) -> Body:
    """All of it, as it is now."""
    asked.told()
    settings, each = office.settings, shards.of(office.settings)
    now, clearing, waiting = time.time(), looks.clearing_accounts(settings), queues(settings)

    def one(shard: Shard) -> Body:
        return of_shard(office, shard, clearing) | {"waiting": waiting.get(shard.number)}

    with concurrent.futures.ThreadPoolExecutor(len(each)) as pool:
        told = list(pool.map(one, each))
    return {"as_of": round(now, 3), "shards": told, "machines": machines(settings)}


def of_shard(office: Office, shard: Shard, clearing: dict[str, str]) -> Body:
    """What is seen of a shard; a number that isn't known is none."""
    told = looks.of_shard(office.settings, shard, clearing, by_scripts=True)
    names = {
        "bytes": "bytes",
        "log_bytes": "log_bytes",
        "room_bytes": "room_bytes",
        "seconds": "probe_seconds",
        "ahead": "ahead_seconds",
        "copied": "copied_timestamp_seconds",
        "swept": "swept_timestamp_seconds",
    }
    return {
        "shard": shard.number,
        "unit": unit_of(shard),
        "answers": told["up"] == 1,
        "hashed": shard.is_hashed,
        "read": office.kept.moments.get(shard.number),
    } | {name: told.get(measure) for name, measure in names.items()}


def unit_of(shard: Shard) -> str | None:
    """The state of a shard's unit; none where there is no systemd."""
    try:
        return units.state(shard.unit)
    except Fault:
        return None


def queues(settings: Settings) -> dict[str, int]:
    """How many requests wait for each shard, where HAProxy says so."""
    try:
        return {name: int(row["qcur"] or 0) for name, row in proxy.shards_state(settings).items()}
    except Fault:
        return {}


def machines(settings: Settings) -> Body | None:
    """Whether the copies on both machines are the same, the votes, and what this machine lacks; none
    where the office is on this machine alone."""
    if not settings.machines:
        return None
    try:
        lacking = [str(one) for one in missing.of(settings, files.this_machine(settings))]
    except Fault as fault:
        lacking = [str(fault)]
    return {
        "votes": dataclasses.asdict(watched.votes()),
        "mirrored": watched.mirrors(settings),
        "lacking": lacking,
    }
