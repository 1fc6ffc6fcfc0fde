"""Sweeps every shard, one after another.

    office sweep [--shard NN ..]

A sweep changes no answer; it brings rows up to date. Prints a line a shard: its number and its
answer."""
from __future__ import annotations

import argparse
import sys

from office import options, sweeps
from office.client import Client
from office.faults import Refused
from office.progress import shown
from office.settings import Settings


def add(parser: argparse.ArgumentParser) -> None:
    """Adds the word's arguments."""
    options.which_shards(parser)
    options.dry_run(parser)


def run(settings: Settings, arguments: argparse.Namespace) -> int:
    """Asks each shard in turn; 1 where one didn't answer that it was swept."""
    failed = 0
    with Client(settings) as client:
        for shard in shown("sweep", options.chosen(settings, arguments)):
            if arguments.dry_run:
                print(f"{shard} would be swept")
                continue
            try:
                print(f"{shard} {client.ask('POST', '/sweep', shard=shard.number).compact()}")
                sweeps.set_mark(settings, shard)
            except Refused as fault:
                print(f"{shard} {fault}", file=sys.stderr)
                failed = 1
            except OSError as fault:
                print(f"{shard} was swept, and isn't marked so: {fault}", file=sys.stderr)
    return failed
