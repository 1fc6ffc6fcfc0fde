"""Writes the statements of a month of all accounts: FOLDER/SHARD/ACCOUNT.txt.

    office statements 202611 FOLDER

One pass over a copy of each shard, while the shards are served. The bytes are those of the program's
word `statement` at the same moment, which is that of the copy and stands in each statement. A
shard's folder appears when it is whole; a folder that is there stays, so the same words again make
those that are left. Accounts that were moved to another shard are written there.

Prints a line a shard: its number, and how many statements it has."""
from __future__ import annotations

import argparse

from office import monthly, statements
from office.settings import Settings

add = monthly.add


def run(settings: Settings, arguments: argparse.Namespace) -> int:
    """Writes them."""
    return monthly.write(settings, arguments, "txt", statements.statements)
