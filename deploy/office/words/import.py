"""Adds a file of vouchers to a shard, which is stopped for it.

    office import vouchers.csv
    office import --shard 02 vouchers.csv

Without --shard the file goes to the shard that has codes of it already, else to the one with the
fewest vouchers that aren't spent; a code may be redeemed for an account of any shard (`office
redeem`). Refused as a whole, before a shard is stopped, where another shard has one of the codes, or
where an archive has one as spent: each could then be spent twice. The same file again adds nothing.

Prints the shard and the program's counts: new, present (there before with the same terms),
conflicting (there with other terms, and left so: status 1). The journal keeps who added which file."""
from __future__ import annotations

import argparse
import pathlib
import sys

from office import copies, operate, options, program, shards, vouchers
from office.alone import alone
from office.faults import Refused
from office.settings import Settings
from office.shards import Shard


def add(parser: argparse.ArgumentParser) -> None:
    """Adds the word's arguments."""
    parser.add_argument("vouchers", type=pathlib.Path, metavar="FILE")
    parser.add_argument("--shard", default="", metavar="NN")
    options.dry_run(parser)


def run(settings: Settings, arguments: argparse.Namespace) -> int:
    """Finds the shard, looks where the codes are, and adds the file."""
    wanted = str(shards.named(settings, arguments.shard)) if arguments.shard else ""
    codes = set(vouchers.codes_of(arguments.vouchers))
    vouchers.are_unspent(settings, codes)
    with copies.made(settings, shards.of(settings)) as made:
        hashed = {str(one) for one in shards.of(settings) if one.is_hashed}
        if wanted and wanted not in hashed:
            raise Refused(f"shard {wanted} has no clearing account: codes go to shards of the hash")
        shard = shards.named(settings, vouchers.chosen(made, codes, wanted, hashed))
    if arguments.dry_run:
        print(f"{shard} would get {len(codes)} codes")
        return 0
    return added(settings, shard, arguments.vouchers)


def added(settings: Settings, shard: Shard, file: pathlib.Path) -> int:
    """Adds the file to a shard that is stopped; 1 where not all of it is there now."""
    with program.readable(settings, file) as readable, alone(settings, shard):
        operate.is_now(shard, operate.last_moment(shard))
        ended = program.run(settings, "import", shard.database, readable)
        told = (ended.stdout + ended.stderr).strip()
        operate.record(f"import {file.resolve()}", shard, told, operate.user())
    sys.stderr.write(ended.stderr)
    if ended.stdout:
        print(f"{shard} {ended.stdout.strip()}")
    has_all = not ended.returncode and ended.stdout.endswith(" conflicting 0\n")
    return 0 if has_all else 1
