"""Opens a clearing account in each shard, and prints their numbers, a line a shard.

    office clearing [--write]

The numbers go down from 999999999999999; the first that lives in a shard is that shard's, so that
it prints the same when it is run again. A shard that gets accounts by the file of moved accounts
alone has one if the file names it, and needs none unless codes are imported there. With --write
they are the file [office] clearing, by which `office redeem` finds them."""
from __future__ import annotations

import argparse
import pathlib
import sys

from office import disk, options, shards
from office.client import Client
from office.faults import Refused
from office.settings import Settings

HIGHEST, TRIED = 999_999_999_999_999, 10_000
DONE, KNOWN = {"Result-Code": 2001}, {"Refusal": "O1"}


def add(parser: argparse.ArgumentParser) -> None:
    """Adds the word's arguments."""
    parser.add_argument("--write", action="store_true", help="write the office's file of them")
    options.dry_run(parser)


def run(settings: Settings, arguments: argparse.Namespace) -> int:
    """Opens the accounts and prints them."""
    found = numbers(settings)
    if not arguments.dry_run:
        with Client(settings) as client:
            for shard, number in found.items():
                open_in(client, shard, number)
    text = "".join(f"{number}\n" for number in found.values())
    if arguments.write and not arguments.dry_run:
        disk.write(pathlib.Path(settings.office.clearing), text)
    print(text, end="")
    if arguments.dry_run:
        print("clearing: none of them was opened, and nothing is written", file=sys.stderr)
    return 0


def open_in(client: Client, shard: str, number: int) -> None:
    """Opens an account, which has to be in this shard."""
    answer = client.ask("PUT", f"/accounts/{number}")
    if answer.body not in (DONE, KNOWN):
        raise Refused(f"{number} isn't opened: {answer.compact()}")
    if answer.shard != shard:
        raise Refused(
            f"HAProxy has {number} in {answer.shard}, the office's file in {shard}: reload it"
        )


def numbers(settings: Settings) -> dict[str, int]:
    """The highest number that lives in each shard, by the shard's number."""
    homes = shards.Homes(settings)
    found: dict[str, int] = {}
    wanted = {shard.number for shard in shards.of(settings) if shard.is_hashed}
    for number in range(HIGHEST, HIGHEST - TRIED, -1):
        found.setdefault(homes.home(str(number)).number, number)
        if wanted <= set(found):
            return {shard: found[shard] for shard in sorted(found)}
    missing = " ".join(sorted(wanted - set(found)))
    raise Refused(f"none of the highest {TRIED} numbers lives in {missing}")
