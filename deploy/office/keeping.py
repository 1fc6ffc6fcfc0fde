"""`[keeping]` of the office's file: where copies and archives are kept, and for how long.

The words `backup`, `restore`, `carry`, `audit` and the words that stop a shard read it."""
from __future__ import annotations

import dataclasses

from office import schema

PATH = (r"/[!#-&(-\[\]-~]{1,200}", "an absolute path without spaces, quotes and backslashes")
PATH_OR_NONE = ("|" + PATH[0], PATH[1])


@dataclasses.dataclass(frozen=True, kw_only=True)
class Keeping:
    """Folders, days and a port of this machine."""

    # A lock of each shard, which a word holds while the shard is stopped.
    locks: str = schema.text("/run/ocs", *PATH)
    # What `carry` left behind: databases that are only read.
    archive: str = schema.text("/var/lib/ocs/archive", *PATH)
    # A folder a night, each with a copy of each shard.
    copies: str = schema.text("/var/lib/ocs/copies", *PATH)
    # A folder on another disk or machine that each night's copies go to as well; empty: none.
    elsewhere: str = schema.text("", *PATH_OR_NONE)
    # How many days copies are kept in either place.
    days: int = schema.whole(14, 1, 3650)
    # How many hours old the last night's copies may be.
    hours: int = schema.whole(26, 1, 1000)
    # A port of 127.0.0.1 that nothing else uses: a database is served there while it is filled
    # or looked at.
    spare_port: int = schema.whole(8199, 1024, 65535)
