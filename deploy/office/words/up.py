"""Brings the office up, or to what its file says now.

    office up [--meant]

Writes HAProxy's configuration where it is another than before and HAProxy takes it; starts each
shard that isn't up, one after another, and waits until it listens; starts HAProxy, or has it read
its configuration, and the agent and the exporter the file; and sees that each shard answers through
HAProxy. What is up already goes on. A shard
whose start the clock is against is left alone (`office check --help` says when); --meant says that
the clock is right. With two machines Pacemaker starts the shards, and while it isn't up here none of
them is asked. Prints a line for each thing that is done."""
from __future__ import annotations

import argparse
import pathlib
import sys
import time
from collections.abc import Callable

from office import alone, clock, options, proxy, shards, units
from office.client import Client
from office.doors import configuration
from office.faults import Refused, TurnedAway
from office.machines import pacemaker
from office.progress import shown
from office.settings import Settings
from office.shards import Shard

# Seconds in which a shard that listens answers through HAProxy.
PATIENCE, AGAIN = 60.0, 0.2
# Those that read the office's file as they start; one that isn't there, or isn't up, is left alone.
SERVICES = ("office-agent*.service", "office-measures*.service", "ocs-credited*.service")


def add(parser: argparse.ArgumentParser) -> None:
    """Adds the word's arguments."""
    parser.add_argument("--meant", action="store_true", help="the clock is right: start by it")
    options.which_shards(parser)
    options.dry_run(parser)


def run(settings: Settings, arguments: argparse.Namespace) -> int:
    """Brings it up; 1 where a shard isn't."""
    chosen = options.chosen(settings, arguments)
    text, path = configuration.text(settings), pathlib.Path(settings.haproxy.file)
    if arguments.dry_run:
        return plan(settings, [] if settings.machines else chosen, text)
    for shard in shards.of(settings):
        fits(shard)
    is_changed = proxy.put(path, text)
    print(f"{path}: {'written' if is_changed else 'as before'}")
    up = each("start", chosen, lambda shard: started(settings, shard, arguments.meant))
    is_new = not proxy.has_read(settings, text)
    if is_new:
        units.systemctl("try-restart", *SERVICES)
    print(proxy.up(settings, is_new), flush=True)
    if settings.machines and not units.is_up(pacemaker.UNIT):
        print("Pacemaker isn't up on this machine: no shard is asked")
        return 0 if up == chosen else 1
    with Client(settings, patience=PATIENCE) as client:
        return 0 if each("ask", up, lambda shard: answers(client, shard)) == chosen else 1


def plan(settings: Settings, chosen: list[Shard], text: str) -> int:
    """Says what would be done."""
    path = pathlib.Path(settings.haproxy.file)
    is_same = path.exists() and path.read_text(encoding="utf-8") == text
    print(f"{path} would be {'as before' if is_same else 'written'}")
    for shard in chosen:
        if not units.is_serving(shard):
            print(f"{shard.unit} would be started")
    if not proxy.has_read(settings, text):
        print(f"the unit {proxy.UNIT} would be started, or read it")
    return 0


def each(what: str, chosen: list[Shard], step: Callable[[Shard], str]) -> list[Shard]:
    """Takes a step for each shard, and prints what it says; the shards for which none was refused."""
    done = []
    for shard in shown(what, chosen):
        try:
            print(f"{shard} {step(shard)}", flush=True)
            done.append(shard)
        except Refused as fault:
            print(f"{shard} {fault}", file=sys.stderr)
    return done


def started(settings: Settings, shard: Shard, is_meant: bool) -> str:
    """Starts a shard that isn't up, now and at each boot, and waits until it listens."""
    if units.is_serving(shard) or (settings.machines and units.is_active(shard)):
        return "is up"
    if settings.machines:
        return "isn't up here: Pacemaker starts it where its disk is"
    if is_meant:
        clock.mean(shard)
    fault = clock.fault(settings, shard)
    if fault:
        raise Refused(
            f"isn't started: {fault}. If this machine's clock is right: office up --meant"
        )
    units.systemctl("enable", "--quiet", "--now", shard.unit)
    alone.wait_until_up(shard)
    return "is started"


def fits(shard: Shard) -> None:
    """Refuses a unit that doesn't serve what the office's file says."""
    told = units.systemctl("show", "--property", "ExecStart", "--value", shard.unit)
    for words in (f"serve {shard.database}", f"--port {shard.port}"):
        if told.strip() and f" {words} " not in told:
            raise Refused(f"{shard.unit} lacks `{words}`, which the office's file says")


def answers(client: Client, shard: Shard) -> str:
    """Sees that a shard answers through HAProxy; a process of before a reload may not know it yet."""
    end = time.monotonic() + PATIENCE
    while True:
        try:
            client.ask("GET", "/accounts/0", shard=shard.number)
            return "answers"
        except TurnedAway:
            if time.monotonic() > end:
                raise
            client.close()
        time.sleep(AGAIN)
