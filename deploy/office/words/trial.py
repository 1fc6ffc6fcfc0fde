"""Shows what a tariff book would cost beside the prices of now, and changes nothing.

    office trial BOOK --from 2026-12-01T00:00

The book is added to a copy of a shard by the program's own word, which says whether it may follow;
then price enquiries ask that copy, and one without the book: each rating group in each tariff period
of the week behind the moment, for the numbers of blocks of --blocks, on an account without any use.
The moment is civil time in the zone of the office's books, or seconds since 1970, and is shown back.

Prints a table: group, period, blocks, the old price and the new one in micro-units, the change.
Where a group or a price isn't in a book, it is `none`."""
from __future__ import annotations

import argparse
import pathlib
import sys
from collections.abc import Iterator

from office import copies, shards, trials
from office.settings import Settings
from office.trials import Tried


def add(parser: argparse.ArgumentParser) -> None:
    """Adds the word's arguments."""
    parser.add_argument("book", type=pathlib.Path, metavar="BOOK")
    parser.add_argument("--from", dest="moment", required=True, metavar="MOMENT")
    parser.add_argument("--blocks", default=trials.BLOCKS, metavar="N,..", help="%(default)s")
    parser.add_argument("--shard", default="01", metavar="NN", help="whose copy (%(default)s)")


def run(settings: Settings, arguments: argparse.Namespace) -> int:
    """Tries the book on a copy; 1 where it may not follow."""
    counts = trials.numbers(arguments.blocks)
    shard = shards.named(settings, arguments.shard)
    with copies.made(settings, [shard]) as made:
        tried = trials.tried(settings, made[0], arguments.book, arguments.moment, counts)
    print(tried.book.shown(), file=sys.stderr)
    print("\n".join(table(tried)))
    return 0


def table(tried: Tried) -> Iterator[str]:
    """The prices side by side."""
    yield f"{'group':>10} {'period':>16} {'blocks':>9} {'old':>16} {'new':>16} {'change':>8}"
    for one, was, now in zip(tried.asked, tried.old, tried.new):
        change = f"{100 * (now - was) / was:+.1f}%" if was and now is not None else "-"
        told = [str(value) if value is not None else "none" for value in (was, now)]
        yield (
            f"{one.group.number:>10} {one.period:>16} {one.blocks:>9} {told[0]:>16} {told[1]:>16} "
            f"{'same' if was == now else change:>8}"
        )
