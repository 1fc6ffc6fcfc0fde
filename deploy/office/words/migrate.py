"""Brings the databases of all shards to the version of the tables that the program has.

    office migrate

After a new version of the program was installed: each shard is stopped, migrated by the program's own
word, in one transaction, and started with the new program, one after another; the others go on. A
shard of the latest version is left alone by the program. No shard is forgotten, those of `[office]
more` among them. Make copies first (`office backups`): an older program doesn't open a migrated
database.

Prints a line a shard: its number and the version that it has then; the status is 1 where one was
refused, and the others are migrated all the same."""
from __future__ import annotations

import argparse
import sys

from office import options, program
from office.alone import alone
from office.faults import Refused
from office.progress import shown
from office.settings import Settings
from office.shards import Shard


def add(parser: argparse.ArgumentParser) -> None:
    """Adds the word's arguments."""
    options.which_shards(parser)
    options.dry_run(parser)


def run(settings: Settings, arguments: argparse.Namespace) -> int:
    """Migrates each shard; 1 where one was refused."""
    failed = 0
    for shard in shown("migrate", options.chosen(settings, arguments)):
        if arguments.dry_run:
            print(f"{shard} would be migrated")
            continue
        try:
            print(f"{shard} {migrated(settings, shard)}", flush=True)
        except Refused as fault:
            print(f"{shard} {fault}", file=sys.stderr)
            failed = 1
    return failed


def migrated(settings: Settings, shard: Shard) -> str:
    """Migrates a shard that is stopped for it; what the program prints."""
    with alone(settings, shard):
        return program.done(settings, "migrate", shard.database).strip()
