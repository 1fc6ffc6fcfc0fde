"""`[archive]` of the office's file: where `office archive` listens, and how long repeats are answered."""
from __future__ import annotations

import dataclasses

from office import schema
from office.agent.table import SOCKET
from office.keeping import PATH


@dataclasses.dataclass(frozen=True, kw_only=True)
class Archive:
    """A socket, a port, a folder, days."""

    socket: str = schema.text("/run/ocs-archive/socket", *SOCKET)
    # Of 127.0.0.1: the program answers there over a few rows of an archive, for a moment.
    port: int = schema.whole(8099, 1024, 65535)
    # What HAProxy reads of the archives: an index, and a filter of each.
    known: str = schema.text("/etc/ocs/known", *PATH)
    # How many days after a carry or a move a repeat of before is answered from the archive.
    days: int = schema.whole(14, 1, 3650)
