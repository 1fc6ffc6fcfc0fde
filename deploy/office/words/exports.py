"""Writes the charges of a month of all accounts as CSV: FOLDER/SHARD/ACCOUNT.csv.

    office exports 202611 FOLDER

As `office statements`: one pass over a copy of each shard, the bytes of the program's word
`statement --csv`. An account without charges has a file of the header alone.

Prints a line a shard: its number, and how many exports it has."""
from __future__ import annotations

import argparse

from office import monthly, statements
from office.settings import Settings

add = monthly.add


def run(settings: Settings, arguments: argparse.Namespace) -> int:
    """Writes them."""
    return monthly.write(
        settings, arguments, "csv", lambda database, month, _: statements.exports(database, month)
    )
