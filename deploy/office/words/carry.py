"""Gives a shard a new database without its past, which becomes an archive.

    office carry 02 [--dry-run]
    office carry 02 --older 20     does nothing where it was carried in the last 20 hours

Carried, by the program's own words and routes: accounts and bars; what is left of each live bucket,
with its first moment, end and scope, under the reference that it had; counters on which a price
depends (an allowance of as many blocks and a debit that it covers, at the price 0); vouchers that
aren't spent; the books from today's on, so there is room for 15 more. Charges, answers, spent vouchers
and empty buckets stay in the archive (`[keeping]` archive). A repeat of a request of before is answered
from there, byte for byte, and never accepted anew (`office archive`); statements and exports have its
charges.

Refused before the shard is stopped: live sessions, findings of the audit (--unaudited carries them), and
a carry that takes longer than requests wait (--long carries it). The shard is stopped meanwhile, and its
requests wait in HAProxy; both databases are compared, bucket by bucket, before the new one takes the
place. Stopped anywhere, -9 as well, the shard goes on with one of the two, whole, and the same words
again end the same.

With two machines no archive answers: a repeat of before is answered anew, but for credits of live
buckets, so requests that were accepted in the last 15 minutes and whose answers didn't arrive, by the
doors' log, refuse the carry too (--long). It is the cure for a shard whose moment is ahead of the clock.
"""
from __future__ import annotations

import argparse
import time

from office import copies, options, places, shards
from office.carry import turn
from office.settings import Settings

HOUR = 3600


def add(parser: argparse.ArgumentParser) -> None:
    """Adds the word's arguments."""
    parser.add_argument("shard", metavar="SHARD")
    parser.add_argument("--unaudited", action="store_true", help="whatever the audit finds")
    parser.add_argument("--older", type=int, default=0, metavar="HOURS", help="since the last one")
    parser.add_argument("--long", action="store_true", help="however long requests wait")
    options.dry_run(parser)


def run(settings: Settings, arguments: argparse.Namespace) -> int:
    """Carries the shard."""
    shard, now = shards.named(settings, arguments.shard), time.time()
    if arguments.older and places.carried(settings, shard, now) > now - HOUR * arguments.older:
        print(f"{shard} was carried in the last {arguments.older} hours")
        return 0
    if arguments.dry_run:
        with copies.made(settings, [shard]) as made:
            plan = turn.planned(settings, shard, made[0], int(time.time()))
        print("\n".join(f"{shard} {line}" for line in plan.sums()))
        print(f"{shard} would be away for some {turn.EACH * plan.count():.1f} s")
        return 0
    turn.shard(settings, shard, not arguments.unaudited, arguments.long)
    return 0
