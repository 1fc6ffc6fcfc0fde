"""Copies all shards, as the timer does each night; keeps some days, and says how old the copies are.

    office backups            copies, sends them to the other place, drops what is too old
    office backups --age      the age of the last copies in each place, and nothing else

Each shard is copied while it is served, into a folder of the night (`[keeping]` copies), with sums
for `sha256sum --check`. Each night that the other place (`[keeping]` elsewhere) lacks is sent there
and compared. Nights older than `[keeping]` days go, but never the last one. Stopped anywhere, a
night that isn't whole has no name, and the next run removes it.

deploy/office-backups.timer runs it each night. --age ends with status 1 where a place has no copies,
or only some that are older than `[keeping]` hours."""
from __future__ import annotations

import argparse
import pathlib

from office import locks, nights, options
from office.settings import Settings


def add(parser: argparse.ArgumentParser) -> None:
    """Adds the word's arguments."""
    parser.add_argument("--age", action="store_true", help="say how old the copies are")
    options.dry_run(parser)


def run(settings: Settings, arguments: argparse.Namespace) -> int:
    """Makes the night's copies, or says how old the last ones are."""
    if arguments.age:
        return nights.report(settings)
    if arguments.dry_run:
        return plan(settings)
    with locks.held(settings, "backups.lock", "copies of the night are made already"):
        return made(settings)


def made(settings: Settings) -> int:
    """Makes the night's copies, while nobody else does."""
    print(nights.make(settings), flush=True)
    if settings.keeping.elsewhere:
        for name in nights.send(settings):
            print(f"{settings.keeping.elsewhere}/{name}")
    for place in nights.places(settings):
        for name in nights.drop(settings, pathlib.Path(place)):
            print(f"{place}/{name} dropped")
    return 0


def plan(settings: Settings) -> int:
    """Says what would be done."""
    for place in nights.places(settings):
        print(f"{place} would get copies of all shards")
        for night in nights.old(settings, pathlib.Path(place)):
            print(f"{night} would be dropped")
    return 0
