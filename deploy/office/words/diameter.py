"""Writes the kind of each rating group for the bridges from Diameter.

    office diameter [BOOK ..] [--shard NN]

A bridge takes of the units that a gateway reports those of the group's kind: seconds, octets or
events. They stand in the tariff books: in the files BOOK, or without one in those of a copy of a
shard. The file that it writes is `groups` of `[diameter]`, whose name is in the bridges'
configuration; `systemctl reload ocs-diameter` has them read it. Run it again with each later book,
before the book begins.

Prints a line a group: its number and its kind. The file is written where it changes; standard error
says so."""
from __future__ import annotations

import argparse
import json
import pathlib
import sys

from office import books, copies, disk, kinds, options, shards
from office.settings import Settings
from office.tables import opened


def add(parser: argparse.ArgumentParser) -> None:
    """Adds the word's arguments."""
    parser.add_argument("books", nargs="*", type=pathlib.Path, metavar="BOOK")
    parser.add_argument("--shard", default="01", metavar="NN", help="whose copy (%(default)s)")
    options.dry_run(parser)


def run(settings: Settings, arguments: argparse.Namespace) -> int:
    """Writes the file; refused where a group has two kinds."""
    told = list(map(kinds.read, arguments.books)) or kept(settings, arguments.shard)
    made = dict(sorted(kinds.kinds_of(told).items()))
    file = pathlib.Path(settings.diameter.groups)
    text = json.dumps({str(group): kind for group, kind in made.items()}, indent=1) + "\n"
    for group, kind in made.items():
        print(group, kind)
    is_same = file.is_file() and file.read_text() == text
    if not is_same and not arguments.dry_run:
        disk.write(file, text)
    becomes = "would be written" if arguments.dry_run else "written"
    print(f"{file}: {'as before' if is_same else becomes}", file=sys.stderr)
    return 0


def kept(settings: Settings, number: str) -> list[books.Book]:
    """The books of a shard."""
    with copies.made(settings, [shards.named(settings, number)]) as [copy]:
        with opened(copy) as database:
            return books.shelf(database)
