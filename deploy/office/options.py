"""Options that many words have, so that they are the same everywhere."""
from __future__ import annotations

import argparse

from office import shards
from office.settings import Settings


def dry_run(parser: argparse.ArgumentParser) -> None:
    """`--dry-run`, for a word that changes something."""
    parser.add_argument(
        "--dry-run", action="store_true", help="say what would be done, and change nothing"
    )


def which_shards(parser: argparse.ArgumentParser) -> None:
    """`--shard NN`, any number of times; without it all shards."""
    parser.add_argument(
        "--shard", action="append", default=[], metavar="NN", help="this shard alone (again: more)"
    )


def chosen(settings: Settings, arguments: argparse.Namespace) -> list[shards.Shard]:
    """The shards that `--shard` names, or all."""
    if not arguments.shard:
        return shards.of(settings)
    return [shards.named(settings, number) for number in arguments.shard]
