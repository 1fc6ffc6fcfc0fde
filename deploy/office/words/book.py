"""Adds a tariff book to every shard from a moment on, or to none.

    office book BOOK --from 2026-12-01T00:00

The moment is civil time in the zone of the office's books, or seconds since 1970; it is shown back
with its offset and in seconds. Copies of all shards are asked first, by the program's own word:
where one refuses the book, no shard is stopped and none gets it. Then each shard is stopped, given
the book and started, one after another. A shard that has it isn't stopped, so the same words again
give it to those that are left. A book can't be taken back: `office trial` shows its prices first.
Groups that the bridges from Diameter don't know yet are named: `office diameter` and a reload have
them known.

Prints a line a shard. The journal keeps who added which file."""
from __future__ import annotations

import argparse
import pathlib
import sys

from office import kinds, options, shelves
from office.settings import Settings


def add(parser: argparse.ArgumentParser) -> None:
    """Adds the word's arguments."""
    parser.add_argument("book", type=pathlib.Path, metavar="BOOK")
    parser.add_argument("--from", dest="moment", required=True, metavar="MOMENT")
    options.dry_run(parser)


def run(settings: Settings, arguments: argparse.Namespace) -> int:
    """Adds the book; 1 where a shard doesn't have it in the end."""
    failed = shelves.add_everywhere(settings, arguments)
    file = pathlib.Path(settings.diameter.groups)
    if unknown := kinds.lacking(file, arguments.book):
        groups = ", ".join(map(str, unknown))
        print(f"book: not in {file}, `office diameter` and a reload: {groups}", file=sys.stderr)
    return failed
