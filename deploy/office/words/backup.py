"""Copies a shard while it is served.

    office backup 04 /var/lib/ocs/backup-04.db

The copy has every command that was answered before. The shard goes on meanwhile: its file and its
log are copied at a moment between two checkpoints. Only where four times a checkpoint ended before
the disk had copied the file does its process stand still for the copy; its requests wait in HAProxy
then, none is lost, and a line on standard error says for how long. A shard that isn't served is
copied as it is. With two machines, one that the other machine serves is copied from a snapshot of
this machine's volume. A file that was there is replaced by a whole copy, or stays."""
from __future__ import annotations

import argparse
import pathlib

from office import copies, options, shards
from office.settings import Settings


def add(parser: argparse.ArgumentParser) -> None:
    """Adds the word's arguments."""
    parser.add_argument("shard", metavar="SHARD")
    parser.add_argument("copy", type=pathlib.Path, metavar="FILE")
    options.dry_run(parser)


def run(settings: Settings, arguments: argparse.Namespace) -> int:
    """Copies the shard."""
    shard = shards.named(settings, arguments.shard)
    if arguments.dry_run:
        print(f"{shard.database} would be copied to {arguments.copy}")
        return 0
    copies.copy(settings, shard, arguments.copy, is_only_read=True)
    print(arguments.copy)
    return 0
