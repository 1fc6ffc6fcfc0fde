"""When each shard was last swept: a mark beside its database.

`words/sweep.py` sets it, the measures read it."""
from __future__ import annotations

import pathlib

from office import program
from office.settings import Settings
from office.shards import Shard


def mark(shard: Shard) -> pathlib.Path:
    """The file whose time is that of the shard's last sweep."""
    return shard.database.with_suffix(".swept")


def set_mark(settings: Settings, shard: Shard) -> None:
    """Says that a shard was swept now; an `OSError` where the folder can't be written."""
    path = mark(shard)
    path.touch()
    program.give(settings, path)
