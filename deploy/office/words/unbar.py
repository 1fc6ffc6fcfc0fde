"""Lifts the bar of accounts.

    office unbar 49151
    office unbar --list FILE

As `office bar`: a stop a shard, and the journal keeps who did it."""
from __future__ import annotations

import argparse

from office import operate
from office.settings import Settings

add = operate.add


def run(settings: Settings, arguments: argparse.Namespace) -> int:
    """Lifts the bar of each account; 1 where one was refused."""
    return operate.on_accounts(settings, arguments, "unbar", False)
