"""Says of each shard whether it is up and answers, what waits, and how large it is.

    office status

A line a shard: its unit's state; milliseconds of an answer; requests that wait for it; how far its
moment is ahead of the clock, in seconds, by its clearing account (- where there is none); bytes of
its database and of its log. The exit status is 1 where a shard doesn't answer."""
from __future__ import annotations

import argparse
import dataclasses
import pathlib
import sys
import time

from office import proxy, redemption, shards, units
from office.client import Client
from office.faults import Refused
from office.progress import shown
from office.settings import Settings
from office.shards import Homes, Shard

NONE = "-"
HEADS = ("shard", "unit", "answers", "waiting", "ahead", "bytes", "log")


def add(parser: argparse.ArgumentParser) -> None:
    """Adds the word's arguments: none."""


@dataclasses.dataclass(frozen=True)
class State:
    """A shard's line, as texts."""

    shard: str
    unit: str
    answers: str
    waiting: str
    ahead: str
    bytes: str
    log: str


def run(settings: Settings, arguments: argparse.Namespace) -> int:
    """Prints the table."""
    waiting, clearings = queues(settings), clearing_of(settings)
    with Client(settings) as client:
        states = [
            state(client, shard, waiting, clearings)
            for shard in shown("status", shards.of(settings))
        ]
    rows = [HEADS, *(dataclasses.astuple(one) for one in states)]
    widths = [max(len(row[at]) for row in rows) for at in range(len(HEADS))]
    for row in rows:
        print("  ".join(text.rjust(width) for text, width in zip(row, widths)))
    silent = [one.shard for one in states if one.answers == NONE]
    if silent:
        print(
            f"office: no answer from {' '.join(silent)}: journalctl --unit ocs@NN", file=sys.stderr
        )
    return 1 if silent else 0


def state(
    client: Client, shard: Shard, waiting: dict[str, str], clearings: dict[str, str]
) -> State:
    """A shard's line."""
    answers, moment = asked(client, shard, clearings.get(shard.number, "0"))
    log = shard.database.with_name(shard.database.name + "-wal")
    return State(
        shard=shard.number,
        unit=unit_state(shard),
        answers=answers,
        waiting=waiting.get(shard.number, NONE),
        ahead=str(max(0, moment - int(time.time()))) if moment else NONE,
        bytes=size(shard.database),
        log=size(log),
    )


def asked(client: Client, shard: Shard, account: str) -> tuple[str, int]:
    """Milliseconds of a shard's answer, and its moment where the account is open; `-` and 0 where
    it doesn't answer."""
    begun = time.monotonic()
    try:
        answer = client.ask("GET", f"/accounts/{account}", shard=shard.number)
    except Refused:
        return NONE, 0
    moment = answer.body.get("Moment", 0)
    return f"{(time.monotonic() - begun) * 1000:.0f} ms", int(moment)


def unit_state(shard: Shard) -> str:
    """The state of a shard's unit; `-` where there is no systemd."""
    try:
        return units.state(shard.unit)
    except Refused:
        return NONE


def queues(settings: Settings) -> dict[str, str]:
    """How many requests wait for each shard, where HAProxy says so."""
    try:
        return {name: row["qcur"] for name, row in proxy.shards_state(settings).items()}
    except Refused:
        return {}


def clearing_of(settings: Settings) -> dict[str, str]:
    """The clearing account of each shard, where there are any."""
    homes = Homes(settings)
    try:
        return {homes.home(account).number: account for account in redemption.clearings(settings)}
    except Refused:
        return {}


def size(path: pathlib.Path) -> str:
    """The bytes of a file."""
    return str(path.stat().st_size) if path.exists() else NONE
